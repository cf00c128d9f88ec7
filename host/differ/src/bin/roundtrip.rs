//! roundtrip N SEED: N canonical sections there and back, N values of each kind written and read back, N times words that are changed to anything,
//! and every case of every refusal; prints what was reached. Ends with 1 on a difference and on a count that is 0.
use differ::trips::{cases, spoil, Trips};
use std::collections::BTreeMap;
use std::time::Instant;

/// How often each case is tried, for N values.
fn turns(n: usize) -> usize {
    (n / 500).max(5)
}

/// What must have been reached, by group and name.
fn wanted() -> Vec<(&'static str, String)> {
    let mut out: Vec<(&'static str, String)> = vec![("canonical sections", "there and back".into()), ("canonical", "any bytes".into())];
    let mut add = |group: &'static str, names: &[&str]| out.extend(names.iter().map(|n| (group, n.to_string())));
    add("answers", &["written", "refused 31", "refused 32", "refused 33", "refused 34", "refused 35", "refused 36"]);
    let commands = ["null", "bandwidth reservation", "private", "time signal", "insert cancelled", "insert by program", "insert by components"];
    add("commands", &commands);
    add("identifiers at their place", &["PrivateBytes", "DtmfChars", "Upid", "Part", "ReservedBytes"]);
    add("insert components", &["none", "1 to 253", "254", "255"]);
    add("items", &["avail", "dtmf", "cancel", "segment", "time", "reserved"]);
    add(
        "sizes",
        &[
            "sections of 4,096 bytes",
            "sections of 2,048 to 4,095 bytes",
            "sections under 2,048 bytes",
            "MIDs of more than 100 levels",
            "loops over 4,076 bytes",
        ],
    );
    for what in ["section", "loop", "descriptor"] {
        add("canonical", &[&format!("{what}: yes"), &format!("{what}: no")]);
    }
    add("put wrong", &spoil::WAYS.map(|way| way.name));
    add("values written and read back", &["commands", "items", "sections"]);
    for what in ["commands", "items", "sections"] {
        add("changed words", &[&format!("{what} that are written and read back"), &format!("{what} that are refused")]);
    }
    add("faults at once, the lowest", &["none", "31", "32", "33", "34", "35", "36"]);
    // all reserved types are 16; an ISAN of eight bytes is written as type 5, and read as type 6
    out.extend((0..=16).map(|k| ("UPID types", format!("{k:2}"))));
    out.extend((1..=16).filter(|k| *k != 5).map(|k| ("types in a MID", format!("{k:2}"))));
    out.extend(cases::all().into_iter().map(|case| ("cases", case.name)));
    out.extend(cases::RUST.iter().map(|(name, refusal, _)| ("cases of the Rust interface", format!("{} {name}", refusal.number()))));
    out
}

fn told(counts: &BTreeMap<(&'static str, String), u64>) {
    let mut group = "";
    for ((g, name), n) in counts {
        if *g != group {
            println!("{g}:");
            group = g;
        }
        println!("  {n:>9}  {name}");
    }
}

fn main() {
    let words: Vec<String> = std::env::args().collect();
    let n: usize = words[1].parse().expect("how many values");
    let seed: u64 = words[2].parse().expect("a seed");
    let start = Instant::now();
    let mut trips = Trips::new(seed);
    (0..n).for_each(|_| trips.section());
    (0..n / 2).for_each(|_| trips.any_bytes());
    for _ in 0..n {
        trips.command();
        trips.item();
        trips.wild_command();
        trips.wild_item();
    }
    for _ in 0..n / 4 {
        trips.whole();
        trips.wild_section();
    }
    for case in cases::all() {
        (0..turns(n)).for_each(|_| trips.case(&case));
    }
    for case in cases::RUST {
        (0..turns(n)).for_each(|_| trips.rust_case(case));
    }
    (0..n / 10).for_each(|_| trips.order());
    told(&trips.counts);
    let missing: Vec<_> = wanted().into_iter().filter(|x| !trips.counts.contains_key(x)).collect();
    missing.iter().for_each(|(group, name)| println!("NOT REACHED, {group}: {name}"));
    let took = start.elapsed().as_secs_f64();
    println!(
        "seed {seed}: {n} sections there and back, {} counts, {} not reached, {} differences, {took:.1} s",
        trips.counts.len(),
        missing.len(),
        trips.differing
    );
    if trips.differing > 0 || !missing.is_empty() {
        std::process::exit(1);
    }
}
