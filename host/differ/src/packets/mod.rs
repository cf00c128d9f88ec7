//! Transport packets: a multiplexer of the host's own, what is put wrong with its packets, and the proved assembler beside a plain second one.
pub mod mux;
pub mod plain;

use crate::answer::hex;
use crate::rng::Rng;
use crate::trips::spoil::Whole;
use crate::trips::{build, draw};
use mpeg2ts_reader::mpegts_crc::sum32;
use mux::{Mux, Packet, Style};
use plain::{Plain, Was};
use scte35::packet::{words, Stream, PACKET_WORDS};
use std::collections::BTreeMap;

/// How many differences are printed in full.
const PRINTED: u64 = 20;

/// A canonical cue section, as the round trip has them.
pub fn cue(rng: &mut Rng) -> Vec<u8> {
    let header = draw::header(rng);
    let command = draw::command(rng, 4076);
    let left = 4076 - build::command(&command).1.bytes.len();
    let room = if rng.one_in(4) { left } else { left.min(600) };
    Whole::new(header, command, draw::items(rng, room)).section.bytes
}

/// A section of some table with a right CRC, of so many bytes, at least 7. The section_syntax_indicator is 0, as a cue's is.
pub fn table(rng: &mut Rng, bytes: usize) -> Vec<u8> {
    let length = bytes - 3;
    let mut s = vec![0xFC, 0x30 | (length >> 8) as u8, length as u8];
    s.extend(rng.bytes(bytes - 7));
    let crc = sum32(&s);
    s.extend(crc.to_be_bytes());
    s
}

/// A section of any table, of so many bytes: only its length is right.
fn any(rng: &mut Rng, bytes: usize) -> Vec<u8> {
    let length = bytes - 3;
    let mut s = vec![rng.below(255) as u8, (rng.byte() & 0xF0) | (length >> 8) as u8, length as u8];
    s.extend(rng.bytes(length));
    s
}

fn length(rng: &mut Rng) -> usize {
    match rng.below(12) {
        0 => rng.pick(&[3, 4, 5, 4094, 4095, 4096]),
        1 => rng.between(3, 4096),
        2 => rng.between(170, 200),
        3 => rng.between(360, 380),
        4..=7 => rng.between(3, 20),
        _ => rng.between(20, 150),
    }
}

pub fn section(rng: &mut Rng) -> Vec<u8> {
    if rng.one_in(3) {
        cue(rng)
    } else {
        let n = length(rng);
        any(rng, n)
    }
}

pub struct Packets {
    pub rng: Rng,
    pub counts: BTreeMap<(&'static str, String), u64>,
    pub differing: u64,
    pub packets: u64,
}

/// The assembler over C and the plain one side by side.
struct Pair {
    state: [u64; PACKET_WORDS],
    buffer: Vec<u8>,
    plain: Plain,
    stream: Stream,
    gaps: u64,
    repeats: u64,
}

impl Pair {
    fn new(rng: &mut Rng, pid: u16) -> Pair {
        let mut state = [7; PACKET_WORDS];
        words::start(pid.into(), &mut state);
        Pair { state, buffer: rng.bytes(4096), plain: Plain::new(pid), stream: Stream::new(pid), gaps: 0, repeats: 0 }
    }

    /// By the C functions: the sections, or the refusal, with which nothing may change.
    fn by_c(&mut self, packet: &[u8]) -> Result<Vec<Vec<u8>>, u64> {
        let before = (self.state, self.buffer.clone());
        match words::feed(&mut self.state, packet, &mut self.buffer) {
            0 => {}
            n => {
                assert!(before == (self.state, self.buffer.clone()), "refusal {n} changed something");
                return Err(n);
            }
        }
        let mut sections = vec![];
        loop {
            match words::take(&mut self.state, packet, &mut self.buffer) {
                0 => return Ok(sections),
                n => sections.push(self.buffer[..n as usize].to_vec()),
            }
        }
    }
}

impl Packets {
    pub fn new(seed: u64) -> Packets {
        Packets { rng: Rng::new(seed), counts: BTreeMap::new(), differing: 0, packets: 0 }
    }

    fn count(&mut self, group: &'static str, name: impl Into<String>) {
        *self.counts.entry((group, name.into())).or_default() += 1;
    }

    fn differs(&mut self, told: String) {
        self.differing += 1;
        if self.differing <= PRINTED {
            println!("DIFFERENCE {told}");
        }
    }

    /// One stream: sections laid into packets, of which some are dropped, repeated or damaged.
    pub fn stream(&mut self) {
        let rng = &mut self.rng;
        let pid = rng.pick(&[0, 1, 500, 8190, 8191]);
        let style = Style { adaptation: rng.pick(&[0, 1, 2, 5]), empty: rng.pick(&[0, 4, 9]), stuffing: rng.pick(&[0, 2, 4]) };
        let mut mux = Mux::new(pid, style, rng.below(16) as u8);
        for _ in 0..rng.between(1, 30) {
            mux.add(section(rng));
        }
        let mut pair = Pair::new(rng, pid);
        let faults = self.rng.pick(&[0, 0, 3, 10, 40]);
        while !mux.is_empty() {
            for packet in mux.next(&mut self.rng) {
                let packets = if faults > 0 && self.rng.one_in(faults) { self.spoilt(packet) } else { vec![packet] };
                packets.iter().for_each(|p| self.compare(&mut pair, p));
            }
        }
        let counts = pair.stream.counts();
        if (counts.gaps, counts.repeats) != (pair.gaps, pair.repeats) {
            self.differs(format!("gaps and repeats {counts:?}, expected {} and {}", pair.gaps, pair.repeats));
        }
    }

    /// What is put wrong with a packet.
    fn spoilt(&mut self, packet: Packet) -> Vec<Packet> {
        let rng = &mut self.rng;
        let mut p = packet.clone();
        let name = match rng.below(17) {
            0 => return self.named("dropped", vec![]),
            1 => return self.named("repeated", vec![p, packet]),
            2 => return self.named("three times", vec![p.clone(), p, packet]),
            3 => {
                p.truncate(rng.below(188));
                "cut"
            }
            4 => {
                p.push(0);
                "a byte more"
            }
            5 => {
                p[0] = rng.byte();
                "sync byte"
            }
            6 => {
                p[rng.pick(&[1, 2])] ^= 1 << rng.below(5);
                "another PID"
            }
            7 => {
                p[3] |= rng.pick(&[0x40, 0x80, 0xC0]);
                "scrambled"
            }
            8 => {
                p[3] |= 0x20;
                p[4] = rng.pick(&[181, 182, 183, 184, 255]);
                "adaptation field at the end"
            }
            9 => {
                p[1] |= 0x40;
                "a start where there is none"
            }
            10 => {
                p[1] &= !0x40;
                "no start"
            }
            11 => {
                let at = 4 + if p[3] & 0x20 == 0 { 0 } else { 1 + p[4] as usize };
                if at < 188 {
                    p[at] = rng.pick(&[0, 1, 181, 182, 183, 184, 255]);
                }
                "first byte of the payload"
            }
            12 => {
                p[1] ^= rng.pick(&[0x80, 0x20]);
                "error indicator or priority"
            }
            13 => {
                p[3] = p[3] & 0xF0 | rng.below(16) as u8;
                "counter"
            }
            14 => {
                let at = rng.between(4, 185);
                p[at] = 0xFC;
                p[at + 1] = 0x3F;
                p[at + 2] = rng.pick(&[0xFC, 0xFD, 0xFE, 0xFF]);
                "section_length"
            }
            15 => {
                p[3] &= 0xCF;
                "neither field nor payload"
            }
            _ => {
                let at = rng.below(188);
                p[at] = rng.byte();
                "any byte"
            }
        };
        // the packet as it was may follow
        let both = self.rng.bit();
        self.named(name, if both { vec![p, packet] } else { vec![p] })
    }

    fn named(&mut self, name: &str, packets: Vec<Packet>) -> Vec<Packet> {
        self.count("put wrong", name);
        packets
    }

    /// The counts of a packet that was taken.
    fn saw(&mut self, p: &[u8], before: &Plain, sections: &[Vec<u8>], was: Was) {
        self.count("taken", format!("{was:?}"));
        if was == Was::WithoutPayload {
            return;
        }
        let field = p[3] & 0x20 != 0;
        if field && p[4] <= 182 {
            self.count("adaptation fields", format!("{:3}", p[4]));
        }
        if p[1] & 0x40 != 0 {
            self.count("pointers", format!("{:3}", p[4 + if field { 1 + p[4] as usize } else { 0 }]));
            if was == Was::Next && !before.under.is_empty() && sections.iter().all(|s| !s.starts_with(&before.under)) {
                self.count("sections", "cut short by a start");
            }
        }
        if was == Was::Gap && !before.under.is_empty() {
            self.count("sections", "dropped at a gap");
        }
        if was == Was::Next && matches!(before.under.len(), 1 | 2) {
            self.count("sections", format!("under way by {}", before.under.len()));
        }
        self.count("finished by a packet", format!("{:2}", sections.len().min(10)));
        for s in sections {
            let size = match s.len() {
                3 => "of 3 bytes",
                4094.. => "of 4,094 bytes and more",
                1000.. => "of 1,000 bytes and more",
                185.. => "over several packets",
                _ => "shorter",
            };
            self.count("sections", size);
        }
    }

    /// Both assemblers answer a packet, and hold the same after it.
    fn compare(&mut self, pair: &mut Pair, p: &[u8]) {
        self.packets += 1;
        let before = pair.plain.clone();
        let expected = pair.plain.packet(p);
        let given = pair.by_c(p);
        let mut streamed = vec![];
        let whole = p.len() == 188;
        if whole {
            pair.stream.eat(p, |_, s| streamed.push(s.to_vec()));
        }
        match &expected {
            Err(n) => {
                self.count("refused", n.to_string());
                if (pair.plain != before) || given != Err(*n) || !streamed.is_empty() {
                    self.differs(format!("{given:?}, expected refusal {n}, held {}, packet {}", hex(&before.under), hex(p)));
                }
            }
            Ok((sections, was)) => {
                self.saw(p, &before, sections, *was);
                pair.gaps += u64::from(*was == Was::Gap);
                pair.repeats += u64::from(*was == Was::Repeat);
                if given.as_ref() != Ok(sections) || streamed != *sections {
                    self.differs(format!("{given:?}, expected {sections:?}, held {}, packet {}", hex(&before.under), hex(p)));
                }
            }
        }
        let held = (pair.state[1], &pair.buffer[..(pair.state[2] as usize).min(4096)]);
        let expected = (pair.plain.last.map_or(16, u64::from), &pair.plain.under[..]);
        if held != expected {
            self.differs(format!("held {held:?}, expected {expected:?}, packet {}", hex(p)));
        }
    }
}
