//! Where the inputs come from: of each kind the short ones exhaustively, then as many random ones as are asked for.
mod commands;
mod headers;
mod loops;
mod sections;
mod upids;

use crate::rng::Rng;
use crate::run::Run;

/// All families. `random`: how many random inputs in all. `long`: the exhaustive parts that take minutes too.
pub fn all(run: &mut Run, rng: &mut Rng, random: usize, long: bool) {
    headers::every_number(run);
    headers::short(run);
    headers::random(run, rng, random / 20);
    commands::short(run, rng);
    commands::random(run, rng, random / 5);
    upids::short(run, long);
    upids::characters(run);
    upids::deep(run, rng);
    upids::random(run, rng, random / 4);
    loops::short(run, rng);
    loops::random(run, rng, random / 4);
    sections::short(run, rng);
    sections::long(run, rng);
    sections::random(run, rng, random / 4);
}
