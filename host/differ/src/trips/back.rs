//! Canonical sections, read and written back to themselves; and what is canonical.
use super::spoil::{self, Spoilt, Way, Whole, WAYS};
use super::{build, draw, Trips};
use crate::answer::*;
use crate::{make, ours};
use scte35::raw;

impl Trips {
    pub(super) fn drawn(&mut self) -> Whole {
        let rng = &mut self.rng;
        let header = draw::header(rng);
        let command = draw::command(rng, 4076);
        let left = 4076 - build::command(&command).1.bytes.len();
        let room = if rng.one_in(4) { left } else { left.min(600) };
        Whole::new(header, command, draw::items(rng, room))
    }

    fn saw(&mut self, whole: &Whole) {
        self.count("commands", whole.command.word());
        if let Command::Insert { detail: Some(Insert { mode: SpliceMode::Components(list), .. }), .. } = &whole.command {
            let count = match list.len() {
                0 => "none",
                1..=253 => "1 to 253",
                254 => "254",
                _ => "255",
            };
            self.count("insert components", count);
        }
        for x in &whole.items {
            self.count("items", x.word());
            if let Item::Segmentation { detail: Some(s), .. } = x {
                // as written: an ISAN of eight bytes is of type 5
                let written = if s.upid.kind == 6 && s.upid.bytes.len() == 8 { 5 } else { s.upid.kind };
                self.count("UPID types", format!("{:2}", written.min(16)));
                s.upid.parts.iter().for_each(|p| self.count("types in a MID", format!("{:2}", p.kind.min(16))));
                let deepest = s.upid.parts.iter().map(|p| p.level).max().unwrap_or(0);
                if deepest > 100 {
                    self.count("sizes", "MIDs of more than 100 levels");
                }
            }
        }
        match whole.section.bytes.len() {
            4096 => self.count("sizes", "sections of 4,096 bytes"),
            2048.. => self.count("sizes", "sections of 2,048 to 4,095 bytes"),
            _ => self.count("sizes", "sections under 2,048 bytes"),
        }
    }

    /// A built section reads as it was built, and goes back to itself both ways.
    pub fn section(&mut self) {
        let whole = self.drawn();
        self.saw(&whole);
        let s = &whole.section.bytes;
        let header = Header { command_length: whole.payload.bytes.len() as u16, command_type: whole.kind, ..whole.header.clone() };
        let built = Section::Accepted { header, command: whole.command.clone(), items: whole.items.clone() };
        let read = ours::section(s).0;
        self.expect(read == built, || format!("section {} reads as {read:?}, built of {built:?}", hex(s)));
        let back = self.back_by_words(s);
        self.expect(back.as_ref() == Ok(s), || format!("section {} goes back to {back:?} by words", hex(s)));
        let back = self.back_by_values(s);
        self.expect(back.as_ref() == Ok(s), || format!("section {} goes back to {back:?} by values", hex(s)));
        self.count("canonical sections", "there and back");
        self.identifiers(&whole);
        self.canonical(&whole);
        let way = &WAYS[self.rng.below(WAYS.len())];
        if let Some(spoilt) = (way.put)(&whole, &mut self.rng) {
            self.spoilt(&whole, way, &spoilt);
        }
    }

    /// The section's identifiers are those that it was built of, in their order; each lies at its place, behind its type as written and its length.
    fn identifiers(&mut self, whole: &Whole) {
        let s = &whole.section.bytes;
        let Ok(section) = scte35::read_section(s) else { return };
        let mut built: Vec<(Option<u8>, usize, &[u8])> = vec![];
        if let Command::Private { bytes, .. } = &whole.command {
            built.push((None, 0, bytes));
        }
        for x in &whole.items {
            match x {
                Item::Dtmf { chars: bytes, .. } | Item::Reserved { bytes, .. } => built.push((None, 0, bytes)),
                Item::Segmentation { detail: Some(Segmentation { upid, .. }), .. } if upid.kind != 0 => {
                    built.push((Some(upid.kind), 0, &upid.bytes));
                    built.extend(upid.parts.iter().map(|p| (Some(p.kind), p.level, &upid.bytes[p.start..][..p.length])));
                }
                _ => {}
            }
        }
        let found: Vec<_> = section.identifiers().map(|i| (i.upid_type.map(|t| t.id()), i.level, i.bytes)).collect();
        self.expect(found == built, || format!("section {} has the identifiers {found:?}, built of {built:?}", hex(s)));
        for i in section.identifiers() {
            let behind = i.written_type().map_or(true, |t| s[i.at - 2..i.at] == [t.id(), i.len() as u8]);
            self.expect(behind && s.get(i.at..i.at + i.len()) == Some(i.bytes), || format!("section {}: {i:?} is not there", hex(s)));
            self.count("identifiers at their place", format!("{:?}", i.kind));
        }
    }

    /// What the C functions read is what they write: every item its descriptor, the loop of these, the section.
    fn back_by_words(&mut self, s: &[u8]) -> Result<Vec<u8>, u64> {
        let read = raw::read_section(s, 0);
        let descriptors = &s[read.descriptors.at as usize..][..read.descriptors.len as usize];
        let mut target = [0x55; 4096];
        let (mut joined, mut offset) = (vec![], 0);
        while offset < descriptors.len() {
            let (step, beside) = (raw::read_item(descriptors, offset), raw::read_segmentation_components(descriptors, offset));
            let answer = raw::write_descriptor_words(step.words(), beside.words(), descriptors, &mut target);
            if answer.refusal != 0 {
                return Err(answer.refusal);
            }
            joined.extend(&target[..answer.length as usize]);
            offset = step.next as usize;
        }
        // of the bytes up to the command's end
        let components = raw::read_insert_components(&s[..(read.payload.at + read.payload.len) as usize], read.payload.at as usize);
        let answer = raw::write_section_words(read.header.words(), read.command.words(), components.words(), s, &joined, &mut target);
        if answer.refusal != 0 {
            return Err(answer.refusal);
        }
        Ok(target[..answer.length as usize].to_vec())
    }

    /// The same through the Rust interface.
    fn back_by_values(&mut self, s: &[u8]) -> Result<Vec<u8>, u64> {
        let section = scte35::read_section(s).map_err(|r| u64::from(r.number()))?;
        let mut target = vec![0x55; scte35::MAX_SECTION];
        let length = section.write_back(&mut target).map_err(|r| u64::from(r.number()))?;
        target.truncate(length);
        Ok(target)
    }

    // ---- the canonical form

    fn is(&mut self, what: &'static str, bytes: &[u8], expected: bool) {
        let (by_words, by_values): (fn(&[u8], usize) -> bool, fn(&[u8]) -> bool) = match what {
            "section" => (raw::is_canonical_section, scte35::is_canonical_section),
            "loop" => (raw::is_canonical_loop, scte35::is_canonical_loop),
            _ => (raw::is_canonical_descriptor, scte35::is_canonical_descriptor),
        };
        self.count("canonical", format!("{what}: {}", if expected { "yes" } else { "no" }));
        self.expect(by_words(bytes, 0) == expected, || format!("canonical {what}? {}, not {expected}: {}", by_words(bytes, 0), hex(bytes)));
        self.expect(by_values(bytes) == expected, || format!("canonical {what}, by Rust: {}", hex(bytes)));
        if self.rng.one_in(8) {
            // behind others, which are not looked at
            let before = self.rng.below(9);
            let all = [&self.rng.bytes(before)[..], bytes].concat();
            self.expect(by_words(&all, before) == expected, || format!("canonical {what} from {before} on: {}", hex(&all)));
        }
    }

    fn canonical(&mut self, whole: &Whole) {
        self.is("section", &whole.section.bytes, true);
        let descriptors: Vec<&[u8]> = whole.descriptors.iter().map(|d| &d.bytes[..]).collect();
        self.is("loop", &descriptors.concat(), true);
        descriptors.iter().for_each(|d| self.is("descriptor", d, true));
    }

    /// One thing put wrong: no longer canonical, and where its reading is the same, it is written as the canonical one.
    fn spoilt(&mut self, whole: &Whole, way: &Way, x: &Spoilt) {
        self.count("put wrong", way.name);
        self.is("section", &x.section, false);
        self.is("loop", &x.descriptors.concat(), x.which.is_none());
        for (k, d) in x.descriptors.iter().enumerate() {
            self.is("descriptor", d, x.which != Some(k));
        }
        let read = raw::read_section(&x.section, 0);
        self.expect(read.refusal == 0, || format!("{}: section {} is refused, {}", way.name, hex(&x.section), read.refusal));
        let same = scte35::read_section(&x.section).ok().zip(scte35::read_section(&whole.section.bytes).ok()).map(|(a, b)| a.reads_as(&b));
        self.expect(same == Some(way.same_reading), || format!("{}: section {} reads the same: {same:?}", way.name, hex(&x.section)));
        if way.same_reading {
            let back = self.back_by_words(&x.section);
            self.expect(back.as_ref() == Ok(&whole.section.bytes), || format!("{}: section {} is written as {back:?}", way.name, hex(&x.section)));
            let back = self.back_by_values(&x.section);
            self.expect(back.as_ref() == Ok(&whole.section.bytes), || {
                format!("{}: section {} is written as {back:?}, by Rust", way.name, hex(&x.section))
            });
        }
    }

    /// Any bytes: canonical exactly where they are what is built of their reading.
    pub fn any_bytes(&mut self) {
        let rng = &mut self.rng;
        let section = match rng.below(4) {
            0 => {
                let (kind, command) = make::command(rng);
                let items = make::items(rng, 600);
                make::section(rng, kind, &command, &items, &[])
            }
            k => {
                let whole = self.drawn().section.bytes;
                match k {
                    1 => make::refitted(&mut self.rng, whole),
                    2 => make::damaged(&mut self.rng, whole),
                    _ => {
                        let mut one = whole;
                        let place = self.rng.below(one.len() - 4);
                        one[place] ^= 1 << self.rng.below(8);
                        make::closed_again(one)
                    }
                }
            }
        };
        self.is("section", &section, spoil::is_canonical_section(&section));
        let rng = &mut self.rng;
        let mut items = if rng.bit() { make::items(rng, 600) } else { build::descriptors(&draw::items(rng, 600)).bytes };
        if rng.one_in(3) {
            items = make::damaged(rng, items);
        }
        self.is("loop", &items, spoil::is_canonical_loop(&items));
        let one = if self.rng.bit() { make::descriptor(&mut self.rng) } else { items };
        self.is("descriptor", &one, spoil::is_canonical_descriptor(&one));
        self.count("canonical", "any bytes");
        if self.rng.one_in(50) {
            self.long_loop();
        }
    }

    /// A loop may be longer than any section's.
    fn long_loop(&mut self) {
        let room = self.rng.between(5000, 70000);
        let mut long = build::descriptors(&self.many(room)).bytes;
        self.is("loop", &long, true);
        let place = self.rng.below(long.len());
        long[place] ^= 1 << self.rng.below(8);
        self.is("loop", &long, spoil::is_canonical_loop(&long));
        self.count("sizes", "loops over 4,076 bytes");
    }

    fn many(&mut self, room: usize) -> Vec<Item> {
        let mut out = vec![];
        let mut length = 0;
        while length < room {
            out.push(draw::item(&mut self.rng));
            length += build::descriptor(&out[out.len() - 1]).expect("drawn to fit").bytes.len();
        }
        out
    }
}
