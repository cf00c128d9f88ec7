//! compare RANDOM SEED [long]: both sides over all families; prints what was reached and every difference. Ends with 1 on a difference that no
//! entry of docs/DIFFERENCES.md names, on an entry whose smallest input does not show it, and where a refusal or a kind was not reached.
use differ::rng::Rng;
use differ::run::Run;
use differ::{families, smallest, theirs};
use std::collections::BTreeMap;
use std::fmt::Display;

/// What a family of counts must have reached.
fn reached<K: Ord + Display>(what: &str, counts: &BTreeMap<K, u64>, wanted: impl IntoIterator<Item = K>) -> bool {
    let told: Vec<String> = counts.iter().map(|(k, n)| format!("{k}: {n}")).collect();
    println!("{what}: {}", told.join(", "));
    let missing: Vec<String> = wanted.into_iter().filter(|k| !counts.contains_key(k)).map(|k| k.to_string()).collect();
    if !missing.is_empty() {
        println!("NOT REACHED, {what}: {}", missing.join(", "));
    }
    missing.is_empty()
}

fn main() {
    let words: Vec<String> = std::env::args().collect();
    let random: usize = words[1].parse().expect("how many random inputs");
    let seed: u64 = words[2].parse().expect("a seed");
    let long = words.get(3).is_some_and(|w| w == "long");
    theirs::listen();
    let mut run = Run::default();
    families::all(&mut run, &mut Rng::new(seed), random, long);
    let mut fine = true;
    for (entry, what, holds) in smallest::rows() {
        println!("entry {entry}: {what}: {}", if holds { "so it is" } else { "NOT SO" });
        fine &= holds;
    }
    fine &= reached("inputs", &run.inputs, ["headers", "numbers", "commands", "UPIDs", "loops", "sections"]);
    fine &= reached("refusals", &run.refusals, (1..=12).chain(21..=25));
    fine &= reached("items", &run.items, ["end", "avail", "dtmf", "cancel", "segment", "time", "reserved", "refused"]);
    let commands = ["null", "bandwidth reservation", "private", "time signal", "insert cancelled", "insert by program", "insert by components"];
    fine &= reached("commands", &run.commands, commands);
    // 5 is reported as 6
    fine &= reached("UPIDs and parts by type", &run.upids, (0..=16).filter(|k| *k != 5));
    fine &= reached("differences by entry", &run.named, 1..=8);
    println!("levels of a MID: {}", run.levels);
    fine &= run.levels == 128;
    let inputs: u64 = run.inputs.values().sum();
    println!(
        "seed {seed}: {inputs} inputs, {} differences, {} of them named in docs/DIFFERENCES.md",
        run.unnamed + run.named.values().sum::<u64>(),
        run.named.values().sum::<u64>()
    );
    if !fine || run.unnamed > 0 {
        std::process::exit(1);
    }
}
