//! relabellings N SEED: N relabellings of random cues at random parts, canonical and not, refused and not, beside a second derivation (rust/scte35's
//! tests/derived); each written section is then read by the port and by the crate, and every field compared. Ends with 1 on a difference that no entry of
//! docs/DIFFERENCES.md names, and where a refusal was not met.
#[path = "../../../scte35/tests/derived/mod.rs"]
mod derived;

use differ::run::Run;
use differ::theirs;
use std::collections::BTreeMap;

fn main() {
    let words: Vec<String> = std::env::args().collect();
    let count: usize = words[1].parse().expect("how many");
    let seed: u64 = words[2].parse().expect("a seed");
    theirs::listen();
    let (mut run, mut met, mut canonical) = (Run::default(), BTreeMap::new(), 0);
    let mut random = derived::Random(0x5EED_1234_ABCD_0041 + seed);
    while met.values().sum::<usize>() < count {
        let Some(case) = derived::case(&mut random) else { continue };
        case.try_out();
        *met.entry(case.wanted).or_insert(0) += 1;
        if case.wanted == 0 {
            run.section(&case.expected);
            canonical += usize::from(case.is_canonical());
        }
    }
    let written = met.get(&0).copied().unwrap_or(0);
    let refused: Vec<String> = met.iter().filter(|(number, _)| **number > 0).map(|(number, n)| format!("{number}: {n}")).collect();
    println!("refused with {}", refused.join(", "));
    let named: Vec<String> = run.named.iter().map(|(entry, n)| format!("{n} of entry {entry}")).collect();
    println!("{written} read again by the crate: items that differ: {} (docs/DIFFERENCES.md); of no entry {}", named.join(", "), run.unnamed);
    println!("seed {seed}: {count} relabellings, {written} written, {canonical} of these of canonical sections; each as derived");
    if run.unnamed > 0 || canonical == 0 || !met.keys().copied().eq(derived::NUMBERS) {
        println!("a difference that is not named, or an answer that was not met");
        std::process::exit(1);
    }
}
