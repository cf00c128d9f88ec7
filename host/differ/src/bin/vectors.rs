//! vectors INPUTS ANSWERS: a sample of inputs, and what the crate says of them in the words of `crates/run_vectors`. Inputs that docs/DIFFERENCES.md
//! names (1, 2, 3, and 8, where the crate has no answer) are left out; of 4 and 7, the answer that the rules give is what a row says there.
use differ::answer::*;
use differ::rng::Rng;
use differ::{make, say, theirs};
use std::collections::BTreeMap;

const SECTIONS: usize = 1200;
const LOOPS: usize = 900;
const UPIDS: usize = 1200;

#[derive(Default)]
struct Sample {
    inputs: String,
    answers: String,
    /// how often each word of an answer's first place occurs
    words: BTreeMap<String, u64>,
}

impl Sample {
    fn add(&mut self, kind: u8, input: &[u8], answer: String) {
        self.inputs.push_str(&format!("{kind:02X}{}\n", hex(input)));
        for line in answer.lines() {
            let word = line.split(' ').find(|w| w.parse::<u64>().is_err() && !w.is_empty()).unwrap_or("");
            let number = if word == "refused" { line.rsplit(' ').next().unwrap_or("") } else { "" };
            *self.words.entry(format!("{word}{number}")).or_default() += 1;
        }
        self.answers.push_str(&answer);
    }

    fn section(&mut self, data: &[u8]) {
        if data.len() < 3 || data.len() > 4096 {
            // refusals 1 and 2 are of the rules, not of the crate
            let number = if data.len() < 3 { 1 } else { 2 };
            return self.add(1, data, say::section(&Section::Refused(number)));
        }
        let answer = theirs::section(data, false);
        let mut text = say::section(&answer);
        if let Section::Accepted { items, .. } = &answer {
            let place = 14 + (usize::from(data[11] & 15) << 8 | usize::from(data[12]));
            let length = usize::from(data[place]) << 8 | usize::from(data[place + 1]);
            let Some(steps) = steps(&data[place + 2..place + 2 + length]) else { return };
            assert!(steps.iter().map(|t| &t.item).eq(items.iter().map(Some).map(|x| x.cloned()).collect::<Vec<_>>().iter()));
            text += &say::steps(&steps);
        }
        self.add(1, data, text);
    }

    fn descriptors(&mut self, data: &[u8]) {
        if data.len() > 4076 {
            let step = Step { item: Some(Item::Refused(Refusal::TooLong)), next: data.len() };
            return self.add(2, data, say::steps(&[step]));
        }
        if let Some(steps) = steps(data) {
            self.add(2, data, say::steps(&steps));
        }
    }

    fn upid(&mut self, kind: u8, bytes: &[u8]) {
        let answer = match bytes.len() {
            0..=255 => theirs::upid(kind, bytes, false),
            _ => Err(Refusal::TooLong),
        };
        let named = match &answer {
            Ok(u) => names_a_difference(u),
            Err(r) => tests_other_types(r),
        };
        if !named {
            self.add(3, &[&[kind], bytes].concat(), say::upid(&answer));
        }
    }
}

fn names_a_difference(u: &Upid) -> bool {
    u.kind == 15 || u.parts.iter().any(|p| p.kind == 15)
}

fn tests_other_types(r: &Refusal) -> bool {
    matches!(r, Refusal::NotText { kind: 9 | 15, .. })
}

/// Every step over a loop; none where an item is named by docs/DIFFERENCES.md.
fn steps(data: &[u8]) -> Option<Vec<Step>> {
    let mut out = vec![];
    let mut offset = 0;
    while offset < data.len() {
        let t = theirs::step(data, offset, false);
        let named = match &t.item {
            Some(Item::Refused(r)) => tests_other_types(r),
            Some(Item::Segmentation { detail: Some(s), .. }) => names_a_difference(&s.upid),
            _ => false,
        };
        if named {
            return None;
        }
        offset = t.next;
        out.push(t);
    }
    Some(out)
}

fn main() {
    let words: Vec<String> = std::env::args().collect();
    theirs::listen();
    let mut rng = Rng::new(35);
    let mut sample = Sample::default();
    edges(&mut sample, &mut rng);
    while sample.inputs.lines().filter(|l| l.starts_with("01")).count() < SECTIONS {
        sections(&mut sample, &mut rng);
    }
    while sample.inputs.lines().filter(|l| l.starts_with("02")).count() < LOOPS {
        let bytes = make::items(&mut rng, 120);
        let bytes = if rng.one_in(3) { bytes } else { make::damaged(&mut rng, bytes) };
        sample.descriptors(&bytes);
    }
    while sample.inputs.lines().filter(|l| l.starts_with("03")).count() < UPIDS {
        let (kind, bytes) = if rng.bit() { (13, make::mid(&mut rng, 60)) } else { make::upid(&mut rng, 60) };
        let bytes = if rng.bit() { bytes } else { make::damaged(&mut rng, bytes) };
        sample.upid(kind, &bytes);
    }
    for (word, n) in &sample.words {
        println!("{word}: {n}");
    }
    let refused = (1..=11).map(|n| format!("refused{n}"));
    let others = ["header", "avail", "dtmf", "cancel", "segment", "time", "reserved", "short", "badlength", "mismatch", "text", "length", "upid"];
    for word in refused.chain(others.map(String::from)) {
        assert!(sample.words.contains_key(&word), "no {word} in the sample");
    }
    println!("{} inputs, {} bytes of answers", sample.inputs.lines().count(), sample.answers.len());
    std::fs::write(&words[1], sample.inputs).expect("the inputs' file");
    std::fs::write(&words[2], sample.answers).expect("the answers' file");
}

/// What chance seldom gives.
fn edges(sample: &mut Sample, rng: &mut Rng) {
    for size in [0, 1, 2, 3, 17, 18, 19, 20, 4097] {
        let mut bytes = vec![0; size];
        if size > 4 {
            bytes[0] = 0xFC;
            bytes = make::closed_again(bytes);
        }
        sample.section(&bytes);
    }
    for size in 0..=8 {
        sample.descriptors(&vec![0; size]);
    }
    for length in [3, 4, 253, 254, 255] {
        for size in [length, length + 1, length + 2, length + 3] {
            let mut bytes = rng.bytes(size);
            bytes.iter_mut().zip([9, length as u8, b'C', b'U', b'E', b'I']).for_each(|(place, b)| *place = b);
            sample.descriptors(&bytes);
        }
    }
    sample.descriptors(&[0; 4077]);
    sample.upid(1, &[0; 256]);
    for kind in 0..=16 {
        for size in [0, 1, 8, 12, 32] {
            sample.upid(kind, &vec![b'A'; size]);
        }
    }
    for levels in [1, 2, 3, 64, 127, 128] {
        sample.upid(13, &make::nested(levels, &[]));
        sample.upid(13, &make::nested(levels, &[13]));
    }
}

fn sections(sample: &mut Sample, rng: &mut Rng) {
    let (kind, command) = make::command(rng);
    let items = make::items(rng, 80);
    if command.len() > 200 && !rng.one_in(20) {
        return;
    }
    let section = make::section(rng, kind, &command, &items, &[]);
    let section = match rng.below(5) {
        0 | 1 => section,
        2 => make::damaged(rng, section),
        3 => {
            let command = make::damaged(rng, command);
            make::section(rng, kind, &command, &items, &[])
        }
        _ => make::refitted(rng, section),
    };
    sample.section(&section);
}
