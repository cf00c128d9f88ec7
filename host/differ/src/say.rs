//! An answer in the words of `crates/run_vectors`, which prints the port's in the same words.
use crate::answer::*;
use std::fmt::Write;

fn bytes(out: &mut String, b: &[u8]) {
    let _ = write!(out, " ={}", hex(b).to_lowercase());
}

fn values(out: &mut String, list: &[u64]) {
    for x in list {
        let _ = write!(out, " {x}");
    }
}

fn time(out: &mut String, t: Time) {
    match t {
        Time::Immediate => out.push_str(" immediate"),
        Time::Unspecified => out.push_str(" unspecified"),
        Time::At(ticks) => values(out, &[ticks]),
    }
}

fn header(out: &mut String, h: &Header) {
    out.push_str("header");
    values(out, &[h.protocol_version.into(), h.encrypted.into(), h.algorithm.into(), h.pts_adjustment]);
    values(out, &[h.cw_index.into(), h.tier.into(), h.command_length.into(), h.command_type.into()]);
}

fn command(out: &mut String, c: &Command) {
    match c {
        Command::Refused(n) => unreachable!("a section with a refused command ({n}) is refused"),
        Command::Null => out.push_str(" null"),
        Command::Bandwidth => out.push_str(" bandwidth"),
        Command::Private { identifier, bytes: b } => {
            out.push_str(" private");
            values(out, &[(*identifier).into()]);
            bytes(out, b);
        }
        Command::TimeSignal(t) => {
            out.push_str(" signal");
            time(out, *t);
        }
        Command::Insert { event, reserved, detail: None } => {
            out.push_str(" cancelled");
            values(out, &[(*event).into(), (*reserved).into()]);
        }
        Command::Insert { event, reserved, detail: Some(x) } => {
            out.push_str(" insert");
            values(out, &[(*event).into(), (*reserved).into(), x.out.into()]);
            insert(out, x);
        }
    }
}

fn insert(out: &mut String, x: &Insert) {
    match &x.mode {
        SpliceMode::Program(t) => {
            out.push_str(" program");
            time(out, *t);
        }
        SpliceMode::Components(list) => {
            out.push_str(" components");
            values(out, &[list.len() as u64]);
            for (tag, t) in list {
                values(out, &[(*tag).into()]);
                time(out, *t);
            }
        }
    }
    if let Some((automatic, ticks)) = x.duration {
        out.push_str(" duration");
        values(out, &[automatic.into(), ticks]);
    }
    values(out, &[x.program_id.into(), x.avail.into(), x.expected.into()]);
}

fn refusal(out: &mut String, r: &Refusal) {
    match r {
        Refusal::TooLong => out.push_str(" refused 2"),
        Refusal::NotEnoughData { expected, actual } => {
            out.push_str(" short");
            values(out, &[*expected as u64, *actual as u64]);
        }
        Refusal::DescriptorLength => out.push_str(" badlength 255"),
        Refusal::Untyped => out.push_str(" mismatch 0"),
        Refusal::NotText { kind, bytes: b } => {
            out.push_str(" text");
            values(out, &[(*kind).into()]);
            bytes(out, b);
        }
        Refusal::WrongLength { kind, expected, actual } => {
            out.push_str(" length");
            values(out, &[(*kind).into(), *expected as u64, *actual as u64]);
        }
    }
}

fn contents(out: &mut String, u: &Upid) {
    out.push_str(" upid");
    values(out, &[u.kind.into()]);
    bytes(out, &u.bytes);
    if u.kind == 13 {
        out.push_str(" parts");
        values(out, &[u.parts.len() as u64]);
        for p in &u.parts {
            out.push(' ');
            values(out, &[p.kind.into(), p.level as u64, p.start as u64, p.length as u64]);
        }
    }
}

fn item(out: &mut String, x: &Item) {
    match x {
        Item::Refused(r) => refusal(out, r),
        Item::Avail(id) => {
            out.push_str(" avail");
            values(out, &[(*id).into()]);
        }
        Item::Dtmf { preroll, chars } => {
            out.push_str(" dtmf");
            values(out, &[(*preroll).into()]);
            bytes(out, chars);
        }
        Item::Time { seconds, nanoseconds, offset } => {
            out.push_str(" time");
            values(out, &[*seconds, (*nanoseconds).into(), (*offset).into()]);
        }
        Item::Reserved { tag, identifier, bytes: b } => {
            out.push_str(" reserved");
            values(out, &[(*tag).into()]);
            bytes(out, identifier);
            bytes(out, b);
        }
        Item::Segmentation { event, detail: None } => {
            out.push_str(" cancel");
            values(out, &[(*event).into()]);
        }
        Item::Segmentation { event, detail: Some(s) } => {
            out.push_str(" segment");
            values(out, &[(*event).into()]);
            segmentation(out, s);
        }
    }
}

fn segmentation(out: &mut String, s: &Segmentation) {
    values(out, &s.flags.map(u64::from));
    if let Some(r) = &s.restrictions {
        out.push_str(" restricted");
        values(out, &[r.web.into(), r.no_blackout.into(), r.archive.into(), r.device.into()]);
    }
    if let Some(list) = &s.components {
        out.push_str(" components");
        values(out, &[list.len() as u64]);
        for (tag, offset) in list {
            values(out, &[(*tag).into(), *offset]);
        }
    }
    if let Some(ticks) = s.duration {
        out.push_str(" duration");
        values(out, &[ticks]);
    }
    contents(out, &s.upid);
    out.push_str(" type");
    values(out, &[s.type_id.into(), s.segment.into(), s.expected.into()]);
    if let Some((number, expected)) = s.sub_segments {
        out.push_str(" sub");
        values(out, &[number.into(), expected.into()]);
    }
}

/// A line for each step: offset, next offset, item.
pub fn steps(steps: &[Step]) -> String {
    let mut out = String::new();
    let mut offset = 0;
    for t in steps {
        let _ = write!(out, "{offset} {}", t.next);
        t.item.iter().for_each(|x| item(&mut out, x));
        out.push('\n');
        offset = t.next;
    }
    out
}

/// Header and command in one line; the items follow as steps.
pub fn section(s: &Section) -> String {
    let mut out = String::new();
    match s {
        Section::Refused(n) => {
            let _ = write!(out, "refused {n}");
        }
        Section::Accepted { header: h, command: c, .. } => {
            header(&mut out, h);
            command(&mut out, c);
        }
    }
    out + "\n"
}

pub fn upid(u: &Result<Upid, Refusal>) -> String {
    let mut out = String::new();
    match u {
        Ok(u) => contents(&mut out, u),
        Err(r) => refusal(&mut out, r),
    }
    out + "\n"
}
