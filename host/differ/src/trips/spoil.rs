//! What is not canonical: a canonical section with one thing put wrong, lengths and CRC right. And by which the canonical form is known of any bytes:
//! they are what is built of their reading.
use super::build;
use crate::answer::*;
use crate::bits::Bits;
use crate::make::closed_again;
use crate::ours;
use crate::rng::Rng;

/// A canonical section, taken apart.
pub struct Whole {
    pub header: Header,
    pub command: Command,
    pub kind: u8,
    pub payload: Bits,
    pub items: Vec<Item>,
    pub descriptors: Vec<Bits>,
    pub section: Bits,
}

/// A section with one thing put wrong, and its loop's descriptors; where it is in one of them, that one's number.
pub struct Spoilt {
    pub section: Vec<u8>,
    pub descriptors: Vec<Vec<u8>>,
    pub which: Option<usize>,
}

/// A thing to put wrong: its name, whether the reading stays the same (so that the canonical section is written of it), and how; none where the
/// section has nothing of the kind.
pub struct Way {
    pub name: &'static str,
    pub same_reading: bool,
    pub put: fn(&Whole, &mut Rng) -> Option<Spoilt>,
}

pub const WAYS: [Way; 11] = [
    Way { name: "a reserved bit of the command", same_reading: true, put: Whole::command_bit },
    Way { name: "a reserved bit of the insert that its reading keeps", same_reading: false, put: Whole::kept_bit },
    Way { name: "a reserved bit of a descriptor", same_reading: true, put: Whole::descriptor_bit },
    Way { name: "a spare byte in the section", same_reading: true, put: Whole::section_byte },
    Way { name: "a spare byte in the command", same_reading: true, put: Whole::command_byte },
    Way { name: "a spare byte in a descriptor", same_reading: true, put: Whole::descriptor_byte },
    Way { name: "a section length that is not the length", same_reading: true, put: Whole::section_length },
    Way { name: "the four bits before it", same_reading: true, put: Whole::four_bits },
    Way { name: "an empty UPID's type", same_reading: true, put: Whole::empty_type },
    Way { name: "the immediate flag of no components", same_reading: true, put: Whole::immediate_none },
    Way { name: "an item that is refused", same_reading: false, put: Whole::refused_item },
];

fn joined(parts: &[Bits]) -> Bits {
    parts.iter().fold(Bits::default(), |bits, part| bits.join(part))
}

fn cleared(bits: &Bits, place: usize) -> Bits {
    let mut out = bits.clone();
    out.bytes[place / 8] &= !(0x80 >> (place % 8));
    out
}

/// What a spare byte may follow: of the others, one byte more is read otherwise or refused.
fn takes_spare(x: &Item) -> bool {
    match x {
        Item::Avail(_) | Item::Dtmf { .. } | Item::Time { .. } | Item::Segmentation { detail: None, .. } => true,
        Item::Segmentation { detail: Some(s), .. } => s.sub_segments.is_some(),
        _ => false,
    }
}

/// One of those that a test picks out.
fn some(rng: &mut Rng, count: usize, fits: impl Fn(usize) -> bool) -> Option<usize> {
    let fitting: Vec<usize> = (0..count).filter(|k| fits(*k)).collect();
    (!fitting.is_empty()).then(|| rng.pick(&fitting))
}

impl Whole {
    pub fn new(header: Header, command: Command, items: Vec<Item>) -> Whole {
        let (kind, payload) = build::command(&command);
        let descriptors: Vec<Bits> = items.iter().map(|x| build::descriptor(x).expect("drawn to fit")).collect();
        let section = build::section(&header, &command, &joined(&descriptors)).expect("drawn to fit");
        Whole { header, command, kind, payload, items, descriptors, section }
    }

    /// The section with another payload, other descriptors, spare bytes; none where it gets too long.
    fn with(&self, payload: &Bits, descriptors: &[Bits], spare: &[u8], which: Option<usize>) -> Option<Spoilt> {
        let section = build::around(&self.header, self.kind, payload, &joined(descriptors), spare).bytes;
        (section.len() <= 4096).then(|| Spoilt { section, descriptors: descriptors.iter().map(|d| d.bytes.clone()).collect(), which })
    }

    fn with_command(&self, payload: &Bits) -> Option<Spoilt> {
        self.with(payload, &self.descriptors, &[], None)
    }

    fn with_descriptor(&self, which: usize, descriptor: Bits) -> Option<Spoilt> {
        let mut all = self.descriptors.clone();
        all[which] = descriptor;
        self.with(&self.payload, &all, &[], Some(which))
    }

    fn changed(&self, change: impl FnOnce(&mut Vec<u8>)) -> Option<Spoilt> {
        let mut section = self.section.bytes.clone();
        change(&mut section);
        Some(Spoilt { section: closed_again(section), descriptors: self.descriptors.iter().map(|d| d.bytes.clone()).collect(), which: None })
    }

    /// Where an insert's own reserved bits stand, which its reading keeps: the seven after the cancel indicator.
    fn kept(&self, place: usize) -> bool {
        self.kind == 5 && (33..40).contains(&place)
    }

    fn command_bit(&self, rng: &mut Rng) -> Option<Spoilt> {
        let k = some(rng, self.payload.reserved.len(), |k| !self.kept(self.payload.reserved[k]))?;
        self.with_command(&cleared(&self.payload, self.payload.reserved[k]))
    }

    fn kept_bit(&self, rng: &mut Rng) -> Option<Spoilt> {
        let k = some(rng, self.payload.reserved.len(), |k| self.kept(self.payload.reserved[k]))?;
        self.with_command(&cleared(&self.payload, self.payload.reserved[k]))
    }

    fn descriptor_bit(&self, rng: &mut Rng) -> Option<Spoilt> {
        let k = some(rng, self.items.len(), |k| !self.descriptors[k].reserved.is_empty())?;
        let place = rng.pick(&self.descriptors[k].reserved);
        self.with_descriptor(k, cleared(&self.descriptors[k], place))
    }

    fn section_byte(&self, rng: &mut Rng) -> Option<Spoilt> {
        let length = rng.between(1, 3);
        self.with(&self.payload, &self.descriptors, &rng.bytes(length), None)
    }

    /// Behind an insert or a time signal: of a private command it would be one of its own, and the others are refused with it.
    fn command_byte(&self, rng: &mut Rng) -> Option<Spoilt> {
        if ![5, 6].contains(&self.kind) {
            return None;
        }
        self.with_command(&self.payload.clone().put(8, rng.byte().into()))
    }

    fn descriptor_byte(&self, rng: &mut Rng) -> Option<Spoilt> {
        let k = some(rng, self.items.len(), |k| takes_spare(&self.items[k]) && self.descriptors[k].bytes[1] < 254)?;
        let mut longer = self.descriptors[k].clone().put(8, rng.byte().into());
        longer.bytes[1] += 1;
        self.with_descriptor(k, longer)
    }

    fn section_length(&self, rng: &mut Rng) -> Option<Spoilt> {
        self.changed(|s| s[2] = s[2].wrapping_add(rng.pick(&[1, 2, 16, 254, 255])))
    }

    fn four_bits(&self, rng: &mut Rng) -> Option<Spoilt> {
        self.changed(|s| s[1] ^= rng.between(1, 15) as u8 * 16)
    }

    fn empty_type(&self, rng: &mut Rng) -> Option<Spoilt> {
        let empty = |x: &Item| matches!(x, Item::Segmentation { detail: Some(s), .. } if s.upid.bytes.is_empty());
        let k = some(rng, self.items.len(), |k| empty(&self.items[k]))?;
        let mut typed = self.descriptors[k].clone();
        // UPID type and length, three numbers, and two of sub-segments stand last
        let sub = matches!(&self.items[k], Item::Segmentation { detail: Some(s), .. } if s.sub_segments.is_some());
        let place = typed.bytes.len() - if sub { 7 } else { 5 };
        typed.bytes[place] = rng.between(1, 255) as u8;
        self.with_descriptor(k, typed)
    }

    fn immediate_none(&self, _: &mut Rng) -> Option<Spoilt> {
        let Command::Insert { detail: Some(Insert { mode: SpliceMode::Components(list), .. }), .. } = &self.command else { return None };
        let mut payload = self.payload.clone();
        payload.bytes[5] |= 0x10;
        list.is_empty().then(|| self.with_command(&payload))?
    }

    fn refused_item(&self, rng: &mut Rng) -> Option<Spoilt> {
        let length = rng.below(4);
        let mut all = self.descriptors.clone();
        all.push(Bits::default().put(8, rng.byte().into()).put(8, length as u64).all(&rng.bytes(length)));
        self.with(&self.payload, &all, &[], Some(self.items.len()))
    }
}

// ---- any bytes

/// One item, and the bytes are what is built of it.
pub fn is_canonical_descriptor(bytes: &[u8]) -> bool {
    match &ours::items(bytes)[..] {
        [Item::Refused(_)] => false,
        [x] => build::descriptor(x).is_some_and(|bits| bits.bytes == bytes),
        _ => false,
    }
}

/// Such descriptors one after another, by their lengths. How long a loop may be is the section's rule.
pub fn is_canonical_loop(mut bytes: &[u8]) -> bool {
    while let [_, length, ..] = bytes {
        let size = usize::from(*length) + 2;
        if size > bytes.len() || !is_canonical_descriptor(&bytes[..size]) {
            return false;
        }
        bytes = &bytes[size..];
    }
    bytes.is_empty()
}

/// Accepted, and the bytes are what is built of header, command and a canonical loop.
pub fn is_canonical_section(bytes: &[u8]) -> bool {
    let (Section::Accepted { header, command, .. }, descriptors) = ours::section(bytes) else { return false };
    let built = build::section(&header, &command, &Bits::default().all(descriptors));
    is_canonical_loop(descriptors) && built.is_some_and(|bits| bits.bytes == bytes)
}
