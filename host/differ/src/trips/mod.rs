//! There and back: what is read is written back to the same bytes, what is written reads back as the same value, and what the writers refuse leaves
//! the target as it was. Through the C functions and through the Rust interface. What is expected comes from the host's own builder and its own
//! reading of the rules.
pub mod api;
mod back;
pub mod build;
pub mod cases;
pub mod draw;
pub mod fields;
pub mod model;
pub mod spoil;
mod values;
pub mod wild;
pub mod words;

use crate::answer::hex;
use crate::rng::Rng;
use scte35::{raw, Refusal};
use std::collections::BTreeMap;
use words::{CommandWords, ItemWords};

/// How many differences are printed in full.
const PRINTED: u64 = 20;

pub struct Trips {
    pub rng: Rng,
    /// what was reached, by group and name
    pub counts: BTreeMap<(&'static str, String), u64>,
    pub differing: u64,
}

/// An answer of the Rust interface as that of the C function.
fn flat(answer: Result<usize, Refusal>) -> raw::Written {
    match answer {
        Ok(length) => raw::Written { refusal: 0, length: length as u64 },
        Err(r) => raw::Written { refusal: r.number().into(), length: 0 },
    }
}

/// As many words as are needed: those that are 0 may be left out at the end.
fn trimmed<'a>(rng: &mut Rng, words: &'a [u64]) -> &'a [u64] {
    trimmed_to(rng, words, 0)
}

/// The same, with at least so many.
fn trimmed_to<'a>(rng: &mut Rng, words: &'a [u64], needed: usize) -> &'a [u64] {
    let least = needed.max(words.len() - words.iter().rev().take_while(|w| **w == 0).count());
    let between = rng.between(least, words.len());
    &words[..rng.pick(&[least, words.len(), between])]
}

impl Trips {
    pub fn new(seed: u64) -> Trips {
        Trips { rng: Rng::new(seed), counts: BTreeMap::new(), differing: 0 }
    }

    pub fn count(&mut self, group: &'static str, name: impl Into<String>) {
        *self.counts.entry((group, name.into())).or_default() += 1;
    }

    pub fn expect(&mut self, holds: bool, told: impl FnOnce() -> String) {
        if !holds {
            self.differing += 1;
            if self.differing <= PRINTED {
                println!("DIFFERENCE {}", told());
            }
        }
    }

    /// A target that is enough for so many bytes.
    fn room(&mut self, length: usize) -> usize {
        length + if self.rng.bit() { self.rng.below(40) } else { 0 }
    }

    /// Calls a writer with a target of `room` bytes, each filled before. Its answer is the expected one; an accepted write changes the bytes of its
    /// result, a refused one none. Gives back what was written.
    pub fn written(
        &mut self,
        told: impl Fn() -> String,
        expected: Result<&[u8], u64>,
        room: usize,
        write: impl FnOnce(&mut [u8]) -> raw::Written,
    ) -> Option<Vec<u8>> {
        let filling = self.rng.next();
        let mut target: Vec<u8> = (0..room as u64).map(|i| (i.wrapping_mul(0x9E37_79B9).wrapping_add(filling) >> 7) as u8).collect();
        let mut later = target.clone();
        let answer = match expected {
            Ok(bytes) if bytes.len() <= room => {
                later[..bytes.len()].copy_from_slice(bytes);
                raw::Written { refusal: 0, length: bytes.len() as u64 }
            }
            Ok(_) => raw::Written { refusal: 36, length: 0 },
            Err(n) => raw::Written { refusal: n, length: 0 },
        };
        let given = write(&mut target);
        self.count("answers", if given.refusal == 0 { "written".into() } else { format!("refused {}", given.refusal) });
        self.expect(given == answer, || format!("answer {given:?}, expected {answer:?}, target of {room}: {}", told()));
        self.expect(target == later, || format!("target {}, expected {}: {}", hex(&target), hex(&later), told()));
        (given.refusal == 0).then(|| target[..given.length as usize].to_vec())
    }

    // ---- words, through the C functions

    pub fn by_command(&mut self, x: &CommandWords, expected: Result<&[u8], u64>, room: usize) -> Option<Vec<u8>> {
        let command = trimmed(&mut self.rng, x.command.words());
        let components = trimmed(&mut self.rng, x.components.words());
        let told = || format!("command {:?}, components {:?}, lent {}", x.command.words(), components, hex(&x.lent));
        self.written(told, expected, room, |target| raw::write_command_words(command, components, &x.lent, target))
    }

    pub fn by_item(&mut self, x: &ItemWords, expected: Result<&[u8], u64>, room: usize) -> Option<Vec<u8>> {
        let step = trimmed(&mut self.rng, x.step.words());
        // 33: "a descriptor put without its components or EIDR"
        let needed = model::beside_words(x);
        let missing = expected.is_ok() && needed > 0 && self.rng.below(8) == 0;
        let expected = if missing { Err(33) } else { expected };
        let beside = if missing { &x.beside.words()[..self.rng.below(needed)] } else { trimmed_to(&mut self.rng, x.beside.words(), needed) };
        let told = || format!("step {:?}, beside {:?}, lent {}", x.step.words(), beside, hex(&x.lent));
        self.written(told, expected, room, |target| raw::write_descriptor_words(step, beside, &x.lent, target))
    }

    pub fn by_section(
        &mut self,
        h: &raw::Header,
        x: &CommandWords,
        descriptors: &[u8],
        expected: Result<&[u8], u64>,
        room: usize,
    ) -> Option<Vec<u8>> {
        let header = trimmed(&mut self.rng, h.words());
        let command = trimmed(&mut self.rng, x.command.words());
        let components = trimmed(&mut self.rng, x.components.words());
        let told = || {
            let (h, c) = (h.words(), x.command.words());
            format!("header {h:?}, command {c:?}, components {components:?}, lent {}, loop {}", hex(&x.lent), hex(descriptors))
        };
        self.written(told, expected, room, |target| raw::write_section_words(header, command, components, &x.lent, descriptors, target))
    }
}
