//! crc-bench FORM LENGTH TURNS: one form of the CRC, that many times over a message of that length. Prints nanoseconds a call, the
//! best of seven rounds. `run` builds it and counts its instructions.
use std::hint::black_box;
use std::time::Instant;

extern "C" {
    fn rt_crc32(bytes: *const u8, length: usize) -> u32;
    fn rt_crc32_plain(bytes: *const u8, length: usize) -> u32;
}

fn fast(message: &[u8]) -> u32 {
    unsafe { rt_crc32(message.as_ptr(), message.len()) }
}

fn plain(message: &[u8]) -> u32 {
    unsafe { rt_crc32_plain(message.as_ptr(), message.len()) }
}

const fn entry(byte: u32) -> u32 {
    let mut z = byte << 24;
    let mut bit = 0;
    while bit < 8 {
        z = if z & 0x8000_0000 != 0 { (z << 1) ^ 0x04C1_1DB7 } else { z << 1 };
        bit += 1;
    }
    z
}

static TABLE: [u32; 256] = {
    let mut table = [0; 256];
    let mut byte = 0;
    while byte < 256 {
        table[byte] = entry(byte as u32);
        byte += 1;
    }
    table
};

/// The form to compare with: a table of 256 entries, a byte at a time.
#[inline(never)]
fn table(message: &[u8]) -> u32 {
    message.iter().fold(0xFFFF_FFFF, |z, byte| (z << 8) ^ TABLE[((z >> 24) as u8 ^ byte) as usize])
}

fn main() {
    let words: Vec<String> = std::env::args().collect();
    let form: fn(&[u8]) -> u32 = match words[1].as_str() {
        "fast" => fast,
        "plain" => plain,
        "table" => table,
        _ => panic!("fast, plain or table"),
    };
    let length: usize = words[2].parse().unwrap();
    let turns: u32 = words[3].parse().unwrap();
    let message: Vec<u8> = (0..length).map(|i| (i * 197 + 13) as u8).collect();
    for n in 0..=length {
        let part = &message[..n];
        assert!(n < length && n > 300 || (fast(part) == table(part) && plain(part) == table(part)));
    }
    let mut best = f64::MAX;
    for _ in 0..7 {
        let start = Instant::now();
        for _ in 0..turns {
            black_box(black_box(form)(black_box(&message)));
        }
        best = best.min(start.elapsed().as_nanos() as f64 / turns as f64);
    }
    println!("{best:.1}");
}
