//! One run: both sides answer each input, the answers are compared, what was reached is counted.
use crate::answer::*;
use crate::{differences, ours, theirs};
use std::collections::BTreeMap;

/// How many differences are printed in full.
const PRINTED: u64 = 40;

#[derive(Default)]
pub struct Run {
    /// inputs of each family
    pub inputs: BTreeMap<&'static str, u64>,
    /// refusals by number, of sections and commands and of items and UPIDs
    pub refusals: BTreeMap<u8, u64>,
    pub items: BTreeMap<&'static str, u64>,
    pub commands: BTreeMap<&'static str, u64>,
    /// accepted UPIDs and parts by reported type, all reserved types as 16
    pub upids: BTreeMap<u8, u64>,
    /// the deepest level of a MID that was accepted, the top one counted
    pub levels: usize,
    /// differences by entry of docs/DIFFERENCES.md
    pub named: BTreeMap<u8, u64>,
    /// differences that no entry names
    pub unnamed: u64,
}

impl Run {
    fn input(&mut self, family: &'static str) {
        *self.inputs.entry(family).or_default() += 1;
    }

    fn refused(&mut self, number: u8) {
        *self.refusals.entry(number).or_default() += 1;
    }

    fn judged<T: std::fmt::Debug>(&mut self, entry: Option<u8>, input: impl FnOnce() -> String, ours: &T, theirs: &T) {
        match entry {
            Some(n) => *self.named.entry(n).or_default() += 1,
            None => {
                self.unnamed += 1;
                if self.unnamed <= PRINTED {
                    println!("DIFFERENCE {}\n  here      {ours:?}\n  the crate {theirs:?}", input());
                }
            }
        }
    }

    fn saw_upid(&mut self, u: &Upid) {
        *self.upids.entry(u.kind.min(16)).or_default() += 1;
        for part in &u.parts {
            *self.upids.entry(part.kind.min(16)).or_default() += 1;
            if part.kind == 13 {
                self.levels = self.levels.max(part.level + 1);
            }
        }
    }

    fn saw_item(&mut self, item: &Item) {
        *self.items.entry(item.word()).or_default() += 1;
        match item {
            Item::Refused(r) => self.refused(r.number()),
            Item::Segmentation { detail: Some(s), .. } => self.saw_upid(&s.upid),
            _ => {}
        }
    }

    fn saw_command(&mut self, command: &Command) {
        *self.commands.entry(command.word()).or_default() += 1;
        if let Command::Refused(n) = command {
            self.refused(*n);
        }
    }

    pub fn section(&mut self, data: &[u8]) {
        self.input("sections");
        let (mine, descriptors) = ours::section(data);
        if let Section::Refused(n) = mine {
            self.refused(n);
        }
        if let Section::Accepted { command, items, .. } = &mine {
            self.saw_command(command);
            items.iter().for_each(|x| self.saw_item(x));
        }
        let size = data.len();
        if size < 3 {
            let entry = differences::of_section_size(size, &mine);
            return self.judged(entry, || format!("section {}", hex(data)), &mine, &mine);
        }
        let their = theirs::section(data, false);
        if mine == their {
            return;
        }
        if size > 4096 {
            let entry = differences::of_section_size(size, &mine);
            return self.judged(entry, || format!("section of {size} bytes"), &mine, &their);
        }
        match (&mine, &their) {
            (Section::Accepted { header: h, command: c, items: x }, Section::Accepted { header: i, command: d, items: y })
                if h == i && c == d && x.len() == y.len() =>
            {
                self.items_of(descriptors, x, y, "section", data);
            }
            _ => self.judged(None, || format!("section {}", hex(data)), &mine, &their),
        }
    }

    /// The items of two lists that differ, each by itself.
    fn items_of(&mut self, descriptors: &[u8], mine: &[Item], their: &[Item], what: &str, data: &[u8]) {
        let mut offset = 0;
        for (x, y) in mine.iter().zip(their) {
            let next = theirs::step(descriptors, offset, false).next;
            if x != y {
                let entry = differences::of_item(&descriptors[offset..next], x, y);
                self.judged(entry, || format!("item at {offset} of the loop of {what} {}", hex(data)), x, y);
            }
            offset = next;
        }
    }

    /// Every step over a loop, from each item's offset; `beside`: from these offsets too, and past the end.
    pub fn descriptors(&mut self, data: &[u8], beside: &[usize]) {
        self.input("loops");
        let mut offset = 0;
        while offset < data.len() {
            offset = self.step(data, offset);
        }
        for offset in beside {
            if *offset < data.len() {
                self.step(data, *offset);
            }
        }
        for offset in [data.len(), data.len() + 1, usize::MAX] {
            self.step_past(data, offset);
        }
        // all items at once, through the unchanged crate
        if data.len() <= 4076 {
            let (mine, their) = (ours::items(data), theirs::items(data, false));
            if mine.len() == their.len() {
                self.items_of(data, &mine, &their, "the null section around", data);
            } else {
                self.judged(None, || format!("items of the loop {}", hex(data)), &mine, &their);
            }
        }
    }

    fn step(&mut self, data: &[u8], offset: usize) -> usize {
        let mine = ours::step(data, offset);
        let their = theirs::step(data, offset, false);
        mine.item.iter().for_each(|x| self.saw_item(x));
        if mine != their {
            let entry = match (&mine.item, &their.item) {
                _ if data.len() > 4076 => differences::of_loop_size(data.len(), &mine),
                (Some(x), Some(y)) if mine.next == their.next => differences::of_item(&data[offset..their.next], x, y),
                _ => None,
            };
            self.judged(entry, || format!("step at {offset} of loop {}", hex(data)), &mine, &their);
        }
        their.next.max(offset + 1)
    }

    /// At or past the end: said so, with the length as next offset. The crate is asked at the end alone.
    fn step_past(&mut self, data: &[u8], offset: usize) {
        let mine = ours::step(data, offset);
        let their = theirs::step(data, data.len(), false);
        if mine.item.is_none() {
            *self.items.entry("end").or_default() += 1;
        }
        if mine != their {
            let entry = differences::of_loop_size(data.len(), &mine);
            self.judged(entry, || format!("step at {offset} of loop {}", hex(data)), &mine, &their);
        }
    }

    pub fn upid(&mut self, kind: u8, bytes: &[u8]) {
        self.input("UPIDs");
        let mine = ours::upid(kind, bytes);
        match &mine {
            Ok(u) => self.saw_upid(u),
            Err(r) => self.refused(r.number()),
        }
        let input = || format!("UPID of type {kind}: {}", hex(bytes));
        if bytes.len() > 255 {
            return self.judged(differences::of_upid_size(bytes.len(), &mine), input, &mine, &mine);
        }
        let their = theirs::upid(kind, bytes, false);
        if mine != their {
            let entry = differences::of_upid(kind, bytes, &mine, &their);
            self.judged(entry, input, &mine, &their);
        }
    }

    pub fn command(&mut self, kind: u8, payload: &[u8]) {
        self.input("commands");
        let (mine, their) = (ours::command(kind, payload), theirs::command(kind, payload));
        self.saw_command(&mine);
        if mine != their {
            self.judged(None, || format!("command of type {kind}: {}", hex(payload)), &mine, &their);
        }
    }

    pub fn header(&mut self, data: &[u8]) {
        self.input("headers");
        let mine = ours::header(data);
        if mine.is_none() {
            self.refused(5);
        }
        let input = || format!("header {}", hex(data));
        if data.len() < 11 {
            let entry = differences::of_header_size(data.len(), &mine);
            return self.judged(entry, input, &mine, &None);
        }
        let their = Some(theirs::header(data));
        if mine != their {
            self.judged(None, input, &mine, &their);
        }
    }

    /// A number: what it is named, or refusal 12. `entry` is 6 where the crate panics and the port refuses.
    pub fn number(&mut self, what: &'static str, number: u8, mine: String, their: String, entry: Option<u8>) {
        self.input("numbers");
        if entry == Some(6) {
            self.refused(12);
        }
        if mine != their {
            self.judged(entry, || format!("{what} {number}"), &mine, &their);
        }
    }
}
