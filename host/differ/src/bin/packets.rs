//! packets N SEED: at least N packets through the proved assembler and through a plain second one; ends with 1 on a difference and on a case that was
//! not reached.
//! packets lay FOLDER N SEED: streams for other assemblers, of sections with right CRCs, undamaged but for the one of that name; and their sections, one
//! to a line in hexadecimal.
//! packets read PID FILE: the sections of a stream by the proved assembler, as `lay` writes them.
//! packets gate FOLDER: `stdin` and `stdout` of crates/run_transport.
//! packets turn PID FILE N: the stream N times through the proved assembler, for a count of instructions; prints packets and sections of one turn.
use differ::answer::hex;
use differ::packets::mux::{Mux, Style};
use differ::packets::plain::Plain;
use differ::packets::{cue, table, Packets};
use differ::rng::Rng;
use scte35::packet::{words, PACKET, PACKET_WORDS};
use std::fmt::Write;
use std::time::Instant;

const PID: u16 = 500;

fn wanted() -> Vec<(&'static str, String)> {
    let mut out = vec![];
    let mut add = |group: &'static str, names: &[&str]| out.extend(names.iter().map(|n| (group, n.to_string())));
    add("refused", &["71", "72", "73", "74", "75"]);
    add("taken", &["WithoutPayload", "Repeat", "Gap", "Next"]);
    add("finished by a packet", &[" 0", " 1", " 2", " 3", " 4", " 5", " 6", " 7", " 8", " 9", "10"]);
    add("sections", &["of 3 bytes", "of 4,094 bytes and more", "of 1,000 bytes and more", "over several packets", "shorter"]);
    add("sections", &["cut short by a start", "dropped at a gap", "under way by 1", "under way by 2"]);
    out.extend((0..=182).map(|n| ("adaptation fields", format!("{n:3}"))));
    out.extend((0..=182).map(|n| ("pointers", format!("{n:3}"))));
    out
}

fn compare(n: u64, seed: u64) {
    let start = Instant::now();
    let mut packets = Packets::new(seed);
    while packets.packets < n {
        packets.stream();
    }
    let mut group = "";
    for ((g, name), count) in packets.counts.iter().filter(|((g, _), _)| !matches!(*g, "adaptation fields" | "pointers")) {
        if *g != group {
            println!("{g}:");
            group = g;
        }
        println!("  {count:>9}  {name}");
    }
    let missing: Vec<_> = wanted().into_iter().filter(|x| !packets.counts.contains_key(x)).collect();
    missing.iter().for_each(|(group, name)| println!("NOT REACHED, {group}: {name}"));
    println!(
        "seed {seed}: {} packets, {} cases reached, {} not reached, {} differences, {:.1} s",
        packets.packets,
        packets.counts.len(),
        missing.len(),
        packets.differing,
        start.elapsed().as_secs_f64()
    );
    if packets.differing > 0 || !missing.is_empty() {
        std::process::exit(1);
    }
}

/// Sections of a stream by the proved assembler: each is handed to `each`.
fn read(pid: u16, stream: &[u8], mut each: impl FnMut(&[u8])) {
    let mut state = [0; PACKET_WORDS];
    words::start(pid.into(), &mut state);
    let mut buffer = [0; 4096];
    for packet in stream.chunks(PACKET) {
        if words::feed(&mut state, packet, &mut buffer) == 0 {
            loop {
                match words::take(&mut state, packet, &mut buffer) {
                    0 => break,
                    n => each(&buffer[..n as usize]),
                }
            }
        }
    }
}

fn write(file: String, bytes: impl AsRef<[u8]>) {
    std::fs::write(&file, bytes).unwrap_or_else(|e| panic!("{file}: {e}"));
}

/// The packets of sections.
fn laid(style: Style, rng: &mut Rng, sections: &[Vec<u8>]) -> Vec<Vec<u8>> {
    let mut mux = Mux::new(PID, style, rng.below(16) as u8);
    let mut packets = vec![];
    sections.iter().for_each(|s| mux.add(s.clone()));
    while !mux.is_empty() {
        packets.extend(mux.next(rng));
    }
    packets
}

/// One stream for other assemblers, and its sections in order.
fn put(folder: &str, name: &str, packets: &[Vec<u8>], sections: &[Vec<u8>]) {
    let lines: String = sections.iter().map(|s| hex(s) + "\n").collect();
    write(format!("{folder}/{name}.ts"), packets.concat());
    write(format!("{folder}/{name}.sections"), lines);
}

fn lay(folder: &str, name: &str, style: Style, rng: &mut Rng, sections: Vec<Vec<u8>>) {
    put(folder, name, &laid(style, rng, &sections), &sections);
}

/// Packets dropped and repeated: the sections are those that the plain assembler gives.
fn lay_damaged(folder: &str, style: Style, rng: &mut Rng, sections: Vec<Vec<u8>>) {
    let mut packets = vec![];
    for packet in laid(style, rng, &sections) {
        let times = match rng.below(20) {
            0 => 0,
            1 => 2,
            _ => 1,
        };
        packets.extend(vec![packet; times]);
    }
    let mut plain = Plain::new(PID);
    let given: Vec<Vec<u8>> = packets.iter().filter_map(|p| plain.packet(p).ok()).flat_map(|(sections, _)| sections).collect();
    put(folder, "damaged", &packets, &given);
}

fn lay_all(folder: &str, n: usize, seed: u64) {
    let mut rng = Rng::new(seed);
    let plain = Style { adaptation: 0, empty: 0, stuffing: 0 };
    let mixed = Style { adaptation: 3, empty: 7, stuffing: 3 };
    let sections = (0..n).map(|_| if rng.bit() { cue(&mut rng) } else { sized(&mut rng) }).collect();
    lay(folder, "mixed", mixed, &mut rng, sections);
    let sections = (0..n).map(|_| sized(&mut rng)).collect();
    lay_damaged(folder, mixed, &mut rng, sections);
    for size in [33, 403, 4096] {
        let sections = (0..(n * 50 / size).max(20)).map(|_| table(&mut rng, size)).collect();
        lay(folder, &format!("of{size}"), plain, &mut rng, sections);
    }
}

fn sized(rng: &mut Rng) -> Vec<u8> {
    let n = match rng.below(6) {
        0 => rng.pick(&[7, 8, 4093, 4094, 4095, 4096]),
        1 => rng.between(7, 4096),
        _ => rng.between(7, 300),
    };
    table(rng, n)
}

/// The packet of a start or of none, behind it the bytes and stuffing.
fn packet(start: bool, counter: u8, bytes: &[&[u8]]) -> Vec<u8> {
    let mut p = vec![0x47, (PID >> 8) as u8 | if start { 0x40 } else { 0 }, PID as u8, 0x10 | counter];
    bytes.iter().for_each(|b| p.extend(*b));
    p.resize(PACKET, 0xFF);
    p
}

/// A small stream: two sections in one packet, one over three packets with a repeat and a packet without payload between them, every refusal, a gap, a
/// cut by a start, a section that begins with a packet's last byte.
fn gate(folder: &str) {
    let mut rng = Rng::new(9);
    let [short, other, long, last] = [20, 55, 403, 33].map(|n| table(&mut rng, n));
    let changed = |mut p: Vec<u8>, at: usize, to: u8| {
        p[at] = to;
        p
    };
    let second = packet(false, 2, &[&long[183..367]]);
    let mut without = packet(false, 2, &[&[183, 0]]);
    without[3] = 0x22;
    let full = vec![0xAA; 182];
    let stream: Vec<Vec<u8>> = vec![
        packet(true, 0, &[&[0], &short, &other]),
        packet(true, 1, &[&[0], &long[..183]]),
        second.clone(),
        second.clone(),
        without,
        changed(second.clone(), 0, 0x48),
        changed(second.clone(), 2, 0xF5),
        changed(second.clone(), 3, 0x53),
        packet(true, 3, &[&[183]]),
        packet(true, 3, &[&[36], &long[367..], &[0xFC, 0x3F, 0xFE]]),
        packet(true, 3, &[&[36], &long[367..], &short]),
        // one that goes on, and a gap
        packet(true, 4, &[&[0], &long[..183]]),
        packet(false, 6, &[&long[183..367]]),
        packet(true, 7, &[&[2], &long[367..369], &other]),
        // one that a start cuts short
        packet(true, 8, &[&[0], &long[..183]]),
        packet(true, 9, &[&[10], &long[183..193], &short]),
        // one that begins with a packet's last byte
        packet(true, 10, &[&[182], &full, &last[..1]]),
        packet(false, 11, &[&last[1..]]),
    ];
    let mut plain = Plain::new(PID);
    let mut told = String::new();
    for (n, p) in stream.iter().enumerate() {
        match plain.packet(p) {
            Err(r) => writeln!(told, "{n} refused {r}").unwrap(),
            Ok((sections, _)) => {
                sections.iter().for_each(|s| writeln!(told, "{n} section {}", hex(s).to_lowercase()).unwrap());
                writeln!(told, "{n} held {}", plain.under.len()).unwrap();
            }
        }
    }
    write(format!("{folder}/stdin"), stream.concat());
    write(format!("{folder}/stdout"), told);
}

fn main() {
    let words: Vec<String> = std::env::args().skip(1).collect();
    let words: Vec<&str> = words.iter().map(String::as_str).collect();
    let number = |s: &str| s.parse::<u64>().unwrap_or_else(|_| panic!("{s}: no number"));
    match words[..] {
        ["lay", folder, n, seed] => lay_all(folder, number(n) as usize, number(seed)),
        ["read", pid, file] => {
            let mut lines = String::new();
            read(number(pid) as u16, &std::fs::read(file).expect(file), |s| lines += &(hex(s) + "\n"));
            print!("{lines}");
        }
        ["gate", folder] => gate(folder),
        ["turn", pid, file, n] => {
            let stream = std::fs::read(file).expect(file);
            let mut sections = 0u64;
            let start = Instant::now();
            for _ in 0..number(n) {
                sections = 0;
                read(number(pid) as u16, &stream, |_| sections += 1);
            }
            println!("{} {sections} {}", stream.len() / PACKET, start.elapsed().as_nanos());
        }
        [n, seed] => compare(number(n), number(seed)),
        _ => panic!("packets N SEED | lay FOLDER N SEED | read PID FILE | gate FOLDER | turn PID FILE N"),
    }
}
