//! Words with some of them changed to anything: the answer is what the rules say, and what is accepted reads back as what the words say.
use super::fields::{Field, COMMAND, COMPONENT, COMPONENT_SPLICE, HEADER, ITEM};
use super::spoil::WAYS;
use super::words::{self, CommandWords, ItemWords};
use super::{build, draw, model, Trips};
use crate::bits::Bits;
use crate::ours;
use crate::rng::Rng;
use scte35::raw;

/// A word for a field: within it, just outside it, or anywhere.
fn word(rng: &mut Rng, width: u32) -> u64 {
    let within = width.min(63);
    match rng.below(8) {
        0 => 0,
        1 => 1,
        2 => 1 << within,
        3 => (1 << within) - 1,
        4 => rng.next() >> rng.below(64),
        _ => rng.number(within),
    }
}

/// One of the words changed.
pub fn change(rng: &mut Rng, words: &mut [u64], fields: &[Field]) {
    let k = rng.below(fields.len());
    words[k] = word(rng, fields[k].1);
}

/// A kind of command, item or UPID, more often one that there is.
fn kinds(rng: &mut Rng, known: &[u64]) -> u64 {
    if rng.one_in(3) {
        rng.below(300) as u64
    } else {
        rng.pick(known)
    }
}

/// A view: somewhere in the lent bytes, just outside, or anywhere.
fn view(rng: &mut Rng, v: &mut raw::View, lent: usize) {
    let at = rng.below(lent + 2);
    *v = match rng.below(6) {
        0 => raw::View { at: rng.next(), len: rng.next() },
        1 => raw::View { at: u64::MAX - at as u64, len: at as u64 + 1 },
        2 => raw::View { at: at as u64, len: 0 },
        3 => raw::View { at: at as u64, len: (lent - at.min(lent)) as u64 },
        _ => raw::View { at: at as u64, len: rng.below(lent + 2 - at) as u64 },
    };
}

pub fn command(rng: &mut Rng, x: &mut CommandWords) {
    match rng.below(8) {
        0 => x.command.splice_command_type = kinds(rng, &[0, 5, 6, 7, 255]),
        1 => view(rng, &mut x.command.private_bytes, x.lent.len()),
        2 | 3 => {
            let places = (x.command.insert.mode.component_count as usize).clamp(1, 255);
            let place = rng.below(places);
            change(rng, x.components.components[place].words_mut(), &COMPONENT_SPLICE);
        }
        _ => change(rng, x.command.words_mut(), &COMMAND),
    }
}

pub fn item(rng: &mut Rng, x: &mut ItemWords) {
    match rng.below(10) {
        0 => x.step.item.kind = kinds(rng, &[0, 1, 2, 3, 4, 5, 6, 7]),
        1 | 2 => view(rng, &mut x.step.item.bytes, x.lent.len()),
        3 => x.step.item.segmentation.segmentation_upid_type = kinds(rng, &[0, 1, 2, 3, 4, 5, 6, 7, 8, 9, 10, 11, 12, 13, 14, 15]),
        4 => {
            let place = rng.below(12);
            x.beside.eidr[place] = word(rng, 8);
        }
        5 => {
            let places = (x.step.item.segmentation.component_count as usize).clamp(1, 255);
            let place = rng.below(places);
            change(rng, x.beside.components[place].words_mut(), &COMPONENT);
        }
        6 if !x.lent.is_empty() => {
            // other bytes where the view is
            let place = rng.below(x.lent.len());
            x.lent[place] = rng.byte();
        }
        _ => change(rng, &mut x.step.words_mut()[5..], &ITEM),
    }
}

impl Trips {
    /// A target that is mostly enough.
    fn some_room(&mut self, length: usize) -> usize {
        match self.rng.below(6) {
            0 => self.rng.below(length + 1),
            1 => length.saturating_sub(1),
            _ => self.room(length),
        }
    }

    fn times(&mut self) -> usize {
        self.rng.pick(&[1, 1, 2, 3, 5])
    }

    pub fn wild_command(&mut self) {
        let value = draw::command(&mut self.rng, 60);
        let mut words = words::command(&mut self.rng, &value);
        for _ in 0..self.times() {
            command(&mut self.rng, &mut words);
        }
        let judged = model::command(&words);
        let built = judged.as_ref().map(build::command);
        let room = self.some_room(built.as_ref().map_or(40, |(_, bits)| bits.bytes.len()));
        let expected = built.as_ref().map(|(_, bits)| &bits.bytes[..]).map_err(|n| **n);
        if let (Some(bytes), Ok(value), Ok((kind, _))) = (self.by_command(&words, expected, room), &judged, &built) {
            let back = ours::command(*kind, &bytes);
            self.expect(back == *value, || format!("{:?} reads back as {back:?}", words.command.words()));
            self.count("changed words", "commands that are written and read back");
        } else {
            self.count("changed words", "commands that are refused");
        }
    }

    pub fn wild_item(&mut self) {
        let value = draw::item(&mut self.rng);
        let mut words = words::item(&mut self.rng, &value);
        for _ in 0..self.times() {
            item(&mut self.rng, &mut words);
        }
        let judged = model::descriptor(&words);
        let room = self.some_room(judged.as_ref().map_or(40, |(_, bits)| bits.bytes.len()));
        let expected = judged.as_ref().map(|(_, bits)| &bits.bytes[..]).map_err(|n| *n);
        if let (Some(bytes), Ok((value, _))) = (self.by_item(&words, expected, room), &judged) {
            let back = ours::items(&bytes);
            self.expect(back == [value.clone()], || format!("{:?} reads back as {back:?}", words.step.words()));
            self.count("changed words", "items that are written and read back");
        } else {
            self.count("changed words", "items that are refused");
        }
    }

    pub fn wild_section(&mut self) {
        let whole = self.drawn();
        let mut header = words::header(&mut self.rng, &whole.header);
        let mut words = words::command(&mut self.rng, &whole.command);
        let mut canonical = true;
        let mut descriptors: Vec<u8> = whole.descriptors.iter().flat_map(|d| d.bytes.clone()).collect();
        for _ in 0..self.times() {
            match self.rng.below(4) {
                0 => command(&mut self.rng, &mut words),
                1 if canonical => {
                    let way = &WAYS[self.rng.below(WAYS.len())];
                    if let Some(spoilt) = (way.put)(&whole, &mut self.rng).filter(|x| x.which.is_some()) {
                        (canonical, descriptors) = (false, spoilt.descriptors.concat());
                    }
                }
                _ => change(&mut self.rng, header.words_mut(), &HEADER),
            }
        }
        let judged = model::section(&header, &words, &Bits::default().all(&descriptors), canonical);
        let room = self.some_room(judged.as_ref().map_or(40, |(.., bits)| bits.bytes.len()));
        let expected = judged.as_ref().map(|(.., bits)| &bits.bytes[..]).map_err(|n| *n);
        let given = self.by_section(&header, &words, &descriptors, expected, room);
        if let (Some(bytes), Ok((header, command, _))) = (given, &judged) {
            self.reads_as(&bytes, header, command, &whole.items);
            self.count("changed words", "sections that are written and read back");
        } else {
            self.count("changed words", "sections that are refused");
        }
    }
}
