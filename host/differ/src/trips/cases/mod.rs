//! Every refusal of the writers and every case of refusal 33 that the rules list, each by name and with its number, put into a random value.
mod commands;
mod items;
mod rust;
mod sections;

use super::words::{self, CommandWords, ItemWords};
use super::{build, draw, model, Trips};
use crate::answer::*;
use crate::bits::Bits;
use crate::rng::Rng;
pub use rust::RUST;
use scte35::raw;

/// What is handed to a writer. The target has `lacks` bytes less than the result, none where that is more than there are.
pub enum Attempt {
    Command(CommandWords),
    Item(ItemWords),
    Section { header: raw::Header, command: CommandWords, descriptors: Vec<u8>, canonical: bool },
}

pub struct Case {
    pub name: String,
    pub number: u64,
    pub lacks: usize,
    pub make: Box<dyn Fn(&mut Rng) -> Attempt>,
}

// ---- values of a kind

fn private(rng: &mut Rng) -> CommandWords {
    let length = rng.below(20);
    let value = Command::Private { identifier: rng.number(32) as u32, bytes: rng.bytes(length) };
    words::command(rng, &value)
}

/// Draws until the test holds.
fn until<T>(rng: &mut Rng, draw: impl Fn(&mut Rng) -> T, holds: impl Fn(&T) -> bool) -> T {
    loop {
        let value = draw(rng);
        if holds(&value) {
            return value;
        }
    }
}

fn insert_where(rng: &mut Rng, holds: fn(&Insert) -> bool) -> CommandWords {
    let value = until(rng, |rng| draw::command(rng, 60), |c| matches!(c, Command::Insert { detail: Some(i), .. } if holds(i)));
    words::command(rng, &value)
}

fn by_components(x: &Insert) -> bool {
    matches!(&x.mode, SpliceMode::Components(list) if list.len() > 1)
}

fn command_of(rng: &mut Rng, kinds: &[&str]) -> CommandWords {
    let value = until(rng, |rng| draw::command(rng, 60), |c| kinds.contains(&c.word()));
    words::command(rng, &value)
}

fn item_of(rng: &mut Rng, kinds: &[&str]) -> ItemWords {
    let value = until(rng, draw::item, |x| kinds.contains(&x.word()));
    words::item(rng, &value)
}

fn segment_where(rng: &mut Rng, holds: impl Fn(&Segmentation) -> bool) -> ItemWords {
    let value = until(rng, draw::item, |x| matches!(x, Item::Segmentation { detail: Some(s), .. } if holds(s)));
    words::item(rng, &value)
}

/// A segmentation by program with a UPID of that type and these bytes, whatever they are.
fn with_upid(rng: &mut Rng, kind: u8, bytes: Vec<u8>) -> ItemWords {
    let mut x = segment_where(rng, |s| s.upid.kind == 0 && s.components.as_ref().map_or(true, |list| list.len() < 10));
    x.step.item.segmentation.segmentation_upid_type = kind.into();
    x.step.item.bytes = raw::View { at: 0, len: bytes.len() as u64 };
    x.lent = bytes;
    x
}

fn nonzero(rng: &mut Rng, width: u32) -> u64 {
    rng.number(width.max(2)).clamp(1, (1 << width.min(63)) - 1)
}

/// Over its field: just so, or by far.
fn over(rng: &mut Rng, width: u32) -> u64 {
    let least = 1u64 << width;
    let any = least | rng.next();
    rng.pick(&[least, least + 1, least << 1, u64::MAX, any])
}

fn section_of(rng: &mut Rng, command: CommandWords) -> Attempt {
    let header = draw::header(rng);
    let header = words::header(rng, &header);
    let items = draw::items(rng, 200);
    Attempt::Section { header, command, descriptors: build::descriptors(&items).bytes, canonical: true }
}

fn any_section(rng: &mut Rng) -> Attempt {
    let value = draw::command(rng, 60);
    let command = words::command(rng, &value);
    section_of(rng, command)
}

/// The ways in which a view reaches outside the lent bytes, of which there are so many.
type ViewWay = (&'static str, fn(&mut Rng, &mut raw::View, u64));
const VIEW_WAYS: [ViewWay; 4] = [
    ("by one", |_, v, n| v.len = n + 1 - v.at),
    ("all of it", |rng, v, n| v.at = n + rng.below(9) as u64 + u64::from(v.len == 0)),
    ("of no bytes", |_, v, n| *v = raw::View { at: n + 1, len: 0 }),
    ("a sum that wraps", |rng, v, n| *v = raw::View { at: u64::MAX - rng.below(9) as u64, len: n + 10 }),
];

// ---- the lists

#[derive(Default)]
struct List(Vec<Case>);

impl List {
    fn add(&mut self, number: u64, name: impl Into<String>, make: impl Fn(&mut Rng) -> Attempt + 'static) {
        self.0.push(Case { name: format!("{number} {}", name.into()), number, lacks: 0, make: Box::new(make) });
    }

    fn command(&mut self, number: u64, name: impl Into<String>, make: impl Fn(&mut Rng) -> CommandWords + 'static) {
        self.add(number, name, move |rng| Attempt::Command(make(rng)));
    }

    fn item(&mut self, number: u64, name: impl Into<String>, make: impl Fn(&mut Rng) -> ItemWords + 'static) {
        self.add(number, name, move |rng| Attempt::Item(make(rng)));
    }

    fn header(&mut self, number: u64, name: impl Into<String>, change: impl Fn(&mut Rng, &mut raw::Header) + 'static) {
        self.add(number, name, move |rng| {
            let Attempt::Section { mut header, command, descriptors, canonical } = any_section(rng) else { unreachable!() };
            change(rng, &mut header);
            Attempt::Section { header, command, descriptors, canonical }
        });
    }
}

/// A canonical loop of exactly so many bytes, where that is 6 or more.
fn exactly(rng: &mut Rng, length: usize) -> Vec<u8> {
    let mut out = vec![];
    while out.len() < length {
        let left = length - out.len();
        // what stays is enough for a descriptor
        let size = if left <= 256 { left } else { rng.between(6, 250) };
        let value = Item::Reserved { tag: rng.between(4, 255) as u8, identifier: *b"CUEI", bytes: rng.bytes(size - 6) };
        out.extend(build::descriptor(&value).expect("made to fit").bytes);
    }
    out
}

pub fn all() -> Vec<Case> {
    let mut list = List::default();
    list.of_headers();
    list.of_commands();
    list.of_items();
    list.of_sections();
    list.0
}

// ---- the runs

impl Trips {
    /// One attempt: both the rules as read here and the C function refuse it by that number.
    pub fn case(&mut self, case: &Case) {
        let attempt = (case.make)(&mut self.rng);
        let lacking = |length: usize| length.saturating_sub(case.lacks);
        let number = if case.number == 36 { 0 } else { case.number };
        match &attempt {
            Attempt::Command(x) => {
                let judged = model::command(x).map(|value| build::command(&value).1);
                self.agrees(&case.name, judged.as_ref().err(), number);
                let room = lacking(judged.as_ref().map_or(60, |bits| bits.bytes.len()));
                self.by_command(x, judged.as_ref().map(|bits| &bits.bytes[..]).map_err(|n| *n), room);
                // and in a section, after which nothing changes
                if let (Attempt::Section { header, command, descriptors, .. }, true) = (section_of(&mut self.rng, x.clone()), number > 0) {
                    self.by_section(&header, &command, &descriptors, Err(number), 4096);
                }
            }
            Attempt::Item(x) => {
                let judged = model::descriptor(x);
                self.agrees(&case.name, judged.as_ref().err(), number);
                let room = lacking(judged.as_ref().map_or(300, |(_, bits)| bits.bytes.len()));
                self.by_item(x, judged.as_ref().map(|(_, bits)| &bits.bytes[..]).map_err(|n| *n), room);
            }
            Attempt::Section { header, command, descriptors, canonical } => {
                let judged = model::section(header, command, &Bits::default().all(descriptors), *canonical);
                self.agrees(&case.name, judged.as_ref().err(), number);
                let room = lacking(judged.as_ref().map_or(4096, |(.., bits)| bits.bytes.len()));
                self.by_section(header, command, descriptors, judged.as_ref().map(|(.., bits)| &bits.bytes[..]).map_err(|n| *n), room);
            }
        }
        self.count("cases", case.name.clone());
    }

    fn agrees(&mut self, name: &str, judged: Option<&u64>, number: u64) {
        self.expect(judged.copied().unwrap_or(0) == number, || format!("{name}: judged {judged:?}"));
    }

    /// "31 to 36 are checked in order of number": a section, then a descriptor, with any of the faults at once; the lowest stands.
    pub fn order(&mut self) {
        let faults = self.rng.below(64) as u64;
        let has = |number: u64| faults >> (number - 31) & 1 == 1;
        let lowest = (31..=36).find(|n| has(*n));
        let rng = &mut self.rng;
        let header = draw::header(rng);
        let mut header = words::header(rng, &header);
        let mut command = private(rng);
        let mut descriptors = if has(34) { exactly(rng, 4077) } else { build::descriptors(&draw::items(rng, 200)).bytes };
        if has(31) {
            command.command.private_bytes.len = command.lent.len() as u64 + 1;
        }
        if has(32) {
            if rng.bit() {
                header.tier = over(rng, 12);
            } else {
                command.command.identifier = over(rng, 32);
            }
        }
        if has(33) {
            if rng.bit() {
                header.encrypted_packet = 1;
            } else {
                command.command.refusal = 11;
            }
        }
        if has(35) {
            descriptors.extend([9, 1, 1]);
        }
        let judged = model::section(&header, &command, &Bits::default().all(&descriptors), !has(35));
        let expected = judged.as_ref().map(|(.., bits)| &bits.bytes[..]).map_err(|n| *n);
        let room = match has(36) {
            true => expected.map_or(10, |bytes| bytes.len() - 1),
            false => 4300,
        };
        self.expect(judged.as_ref().err().copied().or(has(36).then_some(36)) == lowest, || format!("faults {faults:b}: judged {judged:?}"));
        self.by_section(&header, &command, &descriptors, expected, room);
        self.order_of_descriptor(faults);
        self.count("faults at once, the lowest", lowest.map_or("none".into(), |n| n.to_string()));
    }

    fn order_of_descriptor(&mut self, faults: u64) {
        let has = |number: u64| faults >> (number - 31) & 1 == 1;
        let rng = &mut self.rng;
        let length = if has(34) { 251 } else { 250 };
        let value = Item::Reserved { tag: 77, identifier: *b"CUEI", bytes: rng.bytes(length) };
        let mut x = words::item(rng, &value);
        if has(31) {
            x.step.item.bytes.at = x.lent.len() as u64 - x.step.item.bytes.len + 1;
        }
        if has(32) {
            x.step.item.splice_descriptor_tag = over(rng, 8);
        }
        if has(33) {
            x.beside.eidr[3] = 1;
        }
        let judged = model::descriptor(&x);
        let expected = judged.as_ref().map(|(_, bits)| &bits.bytes[..]).map_err(|n| *n);
        let lowest = [31, 32, 33, 34].into_iter().find(|n| has(*n));
        self.expect(expected.err() == lowest, || format!("faults {faults:b}: judged {judged:?}"));
        let room = if has(36) { 255 } else { 256 + self.rng.below(40) };
        self.by_item(&x, expected, room);
    }
}
