//! Random values, written and read back equal.
use super::{api, build, draw, flat, model, words, Trips};
use crate::answer::*;
use crate::ours;

impl Trips {
    /// A random command, written by words and by values, reads back equal.
    pub fn command(&mut self) {
        let value = draw::command(&mut self.rng, 4200);
        let (kind, bits) = build::command(&value);
        let words = words::command(&mut self.rng, &value);
        let judged = model::command(&words);
        self.expect(judged.as_ref() == Ok(&value), || format!("the model judges {judged:?} of {value:?}"));
        let room = self.room(bits.bytes.len());
        let by_words = self.by_command(&words, Ok(&bits.bytes), room);
        let by_values =
            self.written(|| format!("{value:?}"), Ok(&bits.bytes), room, |target| flat(scte35::write_command(&api::command(&value), target)));
        for bytes in [by_words, by_values].into_iter().flatten() {
            let back = ours::command(kind, &bytes);
            self.expect(back == value, || format!("{value:?} reads back as {back:?}"));
            self.count("values written and read back", "commands");
        }
    }

    /// A random item likewise.
    pub fn item(&mut self) {
        let value = draw::item(&mut self.rng);
        let bits = build::descriptor(&value).expect("drawn to fit");
        let words = words::item(&mut self.rng, &value);
        let judged = model::descriptor(&words).map(|(value, _)| value);
        self.expect(judged.as_ref() == Ok(&value), || format!("the model judges {judged:?} of {value:?}"));
        let room = self.room(bits.bytes.len());
        let by_words = self.by_item(&words, Ok(&bits.bytes), room);
        let by_values =
            self.written(|| format!("{value:?}"), Ok(&bits.bytes), room, |target| flat(scte35::write_descriptor(&api::item(&value), target)));
        for bytes in [by_words, by_values].into_iter().flatten() {
            let back = ours::items(&bytes);
            self.expect(back == [value.clone()], || format!("{value:?} reads back as {back:?}"));
            self.count("values written and read back", "items");
        }
    }

    /// A random header, command and loop likewise.
    pub fn whole(&mut self) {
        let whole = self.drawn();
        let header = words::header(&mut self.rng, &whole.header);
        let words = words::command(&mut self.rng, &whole.command);
        let descriptors: Vec<u8> = whole.descriptors.iter().flat_map(|d| d.bytes.clone()).collect();
        let s = &whole.section.bytes;
        let room = self.room(s.len());
        let by_words = self.by_section(&header, &words, &descriptors, Ok(s), room);
        let value = scte35::Section::new(api::header(&whole.header), api::command(&whole.command), scte35::SpliceDescriptors::new(&descriptors));
        let by_values = self.written(|| format!("{value:?}"), Ok(s), room, |target| flat(scte35::write_section(&value, target)));
        for bytes in [by_words, by_values].into_iter().flatten() {
            self.reads_as(&bytes, &whole.header, &whole.command, &whole.items);
            self.count("values written and read back", "sections");
        }
    }

    /// "the header's command length and type .. are left out"
    pub(super) fn reads_as(&mut self, bytes: &[u8], header: &Header, command: &Command, items: &[Item]) {
        let (read, _) = ours::section(bytes);
        let equal = match &read {
            Section::Refused(_) => false,
            Section::Accepted { header: h, command: c, items: i } => {
                let h = Header { command_length: header.command_length, command_type: header.command_type, ..h.clone() };
                h == *header && c == command && i == items
            }
        };
        self.expect(equal, || format!("{header:?}, {command:?}, {items:?} read back as {read:?}"));
    }
}
