//! sections N SEED: N canonical sections by the host's own builder, as hexadecimal, a line each; what `host/cue` sends through `cue`.
//! sections N SEED lines: N lines that no one should send: damaged sections, in every form, and text of any kind.
use differ::answer::hex;
use differ::make;
use differ::rng::Rng;
use differ::trips::{build, draw};
use std::io::{BufWriter, Write};

/// One that fits; one in ten is long.
fn canonical(rng: &mut Rng) -> Vec<u8> {
    loop {
        let room = if rng.one_in(10) { 4000 } else { 200 };
        let (header, command) = (draw::header(rng), draw::command(rng, room));
        let items = draw::items(rng, room);
        if let Some(section) = build::section(&header, &command, &build::descriptors(&items)) {
            return section.bytes;
        }
    }
}

/// A section that is accepted, or has one thing put wrong: a byte, a length, its end. Half of them have a right CRC again.
fn damaged(rng: &mut Rng) -> Vec<u8> {
    let section = if rng.bit() {
        canonical(rng)
    } else {
        let (kind, command) = make::command(rng);
        let items = make::items(rng, 300);
        make::section(rng, kind, &command, &items, &[])
    };
    match rng.below(4) {
        0 => section,
        1 => make::damaged(rng, section),
        2 => make::refitted(rng, section),
        _ => {
            let damaged = make::damaged(rng, section);
            make::closed_again(damaged)
        }
    }
}

fn base64(bytes: &[u8], rng: &mut Rng) -> Vec<u8> {
    let alphabet = if rng.bit() { b"+/" } else { b"-_" };
    let digit = |n: u32| match n {
        0..=25 => b'A' + n as u8,
        26..=51 => b'a' + (n - 26) as u8,
        52..=61 => b'0' + (n - 52) as u8,
        n => alphabet[n as usize - 62],
    };
    let mut out = vec![];
    for chunk in bytes.chunks(3) {
        let n = chunk.iter().fold(0, |n, b| n << 8 | u32::from(*b)) << (8 * (3 - chunk.len()));
        out.extend((0..=chunk.len()).map(|k| digit(n >> (18 - 6 * k) & 63)));
    }
    if rng.bit() {
        out.resize(out.len().div_ceil(4) * 4, b'=');
    }
    out
}

/// A line without its end.
fn line(rng: &mut Rng) -> Vec<u8> {
    let bytes = damaged(rng);
    let mut text = match rng.below(8) {
        0..=2 => hex(&bytes).into_bytes(),
        3 | 4 => base64(&bytes, rng),
        5 => format!("0x{}", hex(&bytes)).into_bytes(),
        6 => bytes.iter().map(|b| format!("{b:02x}")).collect::<Vec<_>>().join(rng.pick(&[":", " ", " 0x"])).into_bytes(),
        _ => bytes,
    };
    match rng.below(6) {
        0 => {
            let at = rng.below(text.len() + 1);
            text.truncate(at);
        }
        1 if !text.is_empty() => {
            let at = rng.below(text.len());
            text[at] = rng.byte();
        }
        2 if rng.one_in(8) => {
            let length = rng.below(200);
            text = rng.bytes(length);
        }
        _ => {}
    }
    text.retain(|b| *b != b'\n');
    text
}

fn main() -> std::io::Result<()> {
    let words: Vec<String> = std::env::args().collect();
    let number = |k: usize, default: u64| words.get(k).map_or(default, |w| w.parse().expect("a number"));
    let lines = words.get(3).is_some_and(|w| w == "lines");
    let mut rng = Rng::new(number(2, 1));
    let mut out = BufWriter::new(std::io::stdout().lock());
    for _ in 0..number(1, 10_000) {
        if lines {
            out.write_all(&line(&mut rng))?;
            out.write_all(b"\n")?;
        } else {
            writeln!(out, "{}", hex(&canonical(&mut rng)))?;
        }
    }
    out.flush()
}
