//! Of headers and sections.
use super::*;
use crate::trips::fields::HEADER;
use crate::trips::spoil::{Whole, WAYS};

impl List {
    pub fn of_headers(&mut self) {
        for (k, (name, width)) in HEADER.into_iter().enumerate().filter(|(_, f)| f.1 < 64) {
            self.header(32, format!("header: {name}"), move |rng, h| h.words_mut()[k] = over(rng, width));
        }
        self.header(33, "encrypted header", |_, h| h.encrypted_packet = 1);
        self.header(33, "a header that is refused", |rng, h| h.refusal = rng.pick(&[1, 5, 32, u64::MAX]));
    }

    pub fn of_sections(&mut self) {
        self.sizes();
        self.loops();
        self.targets();
    }

    /// 34: "section over 4,096"
    fn sizes(&mut self) {
        self.add(34, "section over 4,096: private bytes", |rng| {
            let length = rng.pick(&[4073, 4074, 5000, 70000]);
            let value = Command::Private { identifier: 7, bytes: vec![0x5A; length] };
            let command = words::command(rng, &value);
            let header = draw::header(rng);
            Attempt::Section { header: words::header(rng, &header), command, descriptors: vec![], canonical: true }
        });
        self.add(34, "section over 4,096: loop", |rng| {
            let Attempt::Section { header, command, canonical, .. } = any_section(rng) else { unreachable!() };
            // a loop that is canonical and too long, by itself or by so much as the command takes
            let mut descriptors = vec![];
            while descriptors.len() <= 4076 {
                descriptors.extend(build::descriptor(&draw::item(rng)).expect("drawn to fit").bytes);
            }
            Attempt::Section { header, command, descriptors, canonical }
        });
        self.add(34, "section over 4,096: by one byte", |rng| {
            let value = draw::command(rng, 600);
            let size = build::command(&value).1.bytes.len();
            let descriptors = exactly(rng, 4077 - size);
            let command = words::command(rng, &value);
            let header = draw::header(rng);
            Attempt::Section { header: words::header(rng, &header), command, descriptors, canonical: true }
        });
    }

    /// 35: "lent loop not canonical"
    fn loops(&mut self) {
        let of_descriptors = ["a reserved bit of a descriptor", "a spare byte in a descriptor", "an empty UPID's type", "an item that is refused"];
        for way in WAYS.into_iter().filter(|way| of_descriptors.contains(&way.name)) {
            self.add(35, format!("lent loop not canonical: {}", way.name), move |rng| {
                let draw = |rng: &mut Rng| {
                    let (header, command, items) = (draw::header(rng), draw::command(rng, 60), draw::items(rng, 300));
                    let whole = Whole::new(header, command, items);
                    (way.put)(&whole, rng).map(|spoilt| (whole, spoilt))
                };
                let (whole, spoilt) = until(rng, draw, Option::is_some).expect("drawn until there is one");
                Attempt::Section {
                    header: words::header(rng, &whole.header),
                    command: words::command(rng, &whole.command),
                    descriptors: spoilt.descriptors.concat(),
                    canonical: false,
                }
            });
        }
        self.add(35, "lent loop not canonical: cut", |rng| {
            let Attempt::Section { header, command, .. } = any_section(rng) else { unreachable!() };
            let mut descriptors = build::descriptor(&draw::item(rng)).expect("drawn to fit").bytes;
            descriptors.pop();
            Attempt::Section { header, command, descriptors, canonical: false }
        });
    }

    /// 36: "target shorter than the result"
    fn targets(&mut self) {
        for lacks in [1, 5000] {
            let by = if lacks == 1 { "by one byte" } else { "no byte at all" };
            let first = self.0.len();
            self.command(36, format!("target shorter than a command, {by}"), |rng| {
                command_of(rng, &["private", "time signal", "insert cancelled", "insert by program", "insert by components"])
            });
            self.item(36, format!("target shorter than a descriptor, {by}"), |rng| {
                let value = draw::item(rng);
                words::item(rng, &value)
            });
            self.add(36, format!("target shorter than a section, {by}"), any_section);
            self.0[first..].iter_mut().for_each(|case| case.lacks = lacks);
        }
    }
}
