//! The verbs. To add one, write its file (its words, its run and its tests; `check.rs` is a short one) and put its name into the list below: no other
//! file changes.
use crate::console::Console;
use clap::{ArgMatches, Command};
use std::io;

pub struct Verb {
    pub name: &'static str,
    /// adds the verb's words
    pub words: fn(Command) -> Command,
    /// does it; an error is one of writing
    pub run: fn(&ArgMatches, &mut Console) -> io::Result<()>,
}

macro_rules! verbs {
    ($($name:ident),* $(,)?) => {
        $(mod $name;)*
        pub const ALL: &[Verb] = &[$(Verb { name: stringify!($name), words: $name::words, run: $name::run }),*];
    };
}

verbs!(show, identifiers, map, check, make, adjust, relabel, sections, daterange, completions);

#[cfg(test)]
pub mod tests;
