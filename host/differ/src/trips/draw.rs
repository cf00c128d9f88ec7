//! Random values that a canonical section can hold.
use crate::answer::*;
use crate::make::text;
use crate::rng::Rng;

pub fn header(rng: &mut Rng) -> Header {
    Header {
        protocol_version: rng.byte(),
        encrypted: false,
        algorithm: rng.number(6) as u8,
        pts_adjustment: rng.number(33),
        cw_index: rng.byte(),
        tier: rng.number(12) as u16,
        command_length: 0,
        command_type: 0,
    }
}

fn timed(rng: &mut Rng) -> Time {
    if rng.one_in(4) {
        Time::Unspecified
    } else {
        Time::At(rng.number(33))
    }
}

fn components(rng: &mut Rng) -> SpliceMode {
    let count = match rng.below(10) {
        0 => rng.below(256),
        1 => rng.pick(&[0, 1, 254, 255]),
        _ => rng.below(6),
    };
    let immediate = rng.one_in(3);
    SpliceMode::Components((0..count).map(|_| (rng.byte(), if immediate { Time::Immediate } else { timed(rng) })).collect())
}

fn insert(rng: &mut Rng) -> Insert {
    Insert {
        out: rng.bit(),
        mode: match rng.below(3) {
            0 => SpliceMode::Program(Time::Immediate),
            1 => SpliceMode::Program(timed(rng)),
            _ => components(rng),
        },
        duration: rng.bit().then(|| (rng.bit(), rng.number(33))),
        program_id: rng.number(16) as u16,
        avail: rng.byte(),
        expected: rng.byte(),
    }
}

/// A command whose payload has at most `room` bytes, where `room` is at least 4.
pub fn command(rng: &mut Rng, room: usize) -> Command {
    match rng.below(12) {
        0 => Command::Null,
        1 => Command::Bandwidth,
        2 | 3 => {
            let most = room - 4;
            let length = match rng.below(8) {
                0 => rng.below(most + 1),
                1 => rng.pick(&[0, 1, most.saturating_sub(1), most]),
                _ => rng.below(most.min(40) + 1),
            };
            Command::Private { identifier: rng.number(32) as u32, bytes: rng.bytes(length) }
        }
        4 | 5 => Command::TimeSignal(timed(rng)),
        k => Command::Insert { event: rng.number(32) as u32, reserved: 127, detail: (k > 6).then(|| insert(rng)) },
    }
}

/// The types of UPIDs that have a name, in the order in which they are drawn; the others are 16 to 255.
const KINDS: [u8; 15] = [1, 2, 3, 4, 6, 7, 8, 9, 10, 11, 12, 13, 14, 15, 16];

/// A UPID's type as written and its bytes, at least `least` and at most `room`.
fn contents(rng: &mut Rng, least: usize, room: usize) -> (u8, Vec<u8>) {
    let any = |rng: &mut Rng| {
        let length = if rng.one_in(6) { rng.between(least, room) } else { rng.between(least, room.min(30)) };
        rng.bytes(length)
    };
    match rng.pick(&KINDS) {
        2 if room >= 8 => (2, text(rng, 8)),
        k @ (3 | 7) if room >= 12 => (k, text(rng, 12)),
        4 if room >= 32 => (4, rng.bytes(32)),
        6 if room >= 8 && rng.bit() => (5, rng.bytes(8)),
        k @ (6 | 10) if room >= 12 => (k, rng.bytes(12)),
        8 if room >= 8 => (8, rng.bytes(8)),
        13 if room >= 2 => (13, mid(rng, least, room)),
        k @ (1 | 9 | 11 | 12 | 14 | 15) => (k, any(rng)),
        _ => (rng.between(16, 255) as u8, any(rng)),
    }
}

/// A MID's bytes: parts one after another, or a MID in a MID, as deep as there is room for; at least `least` bytes, where that is 0 or 1.
fn mid(rng: &mut Rng, least: usize, room: usize) -> Vec<u8> {
    if rng.one_in(8) {
        let levels = if rng.bit() { room / 2 } else { rng.below(room / 2 + 1) };
        let deep = (0..levels).fold(vec![], |inside: Vec<u8>, _| [&[13, inside.len() as u8][..], &inside].concat());
        if deep.len() >= least {
            return deep;
        }
    }
    let mut out = vec![];
    while out.len() + 2 <= room && (out.len() < least || !rng.one_in(4)) {
        let (kind, bytes) = contents(rng, 0, room - out.len() - 2);
        out.extend([kind, bytes.len() as u8]);
        out.extend(bytes);
    }
    out
}

/// The parts of a well-formed MID that stands at `start` of the top one, outer before inner.
pub fn parts(bytes: &[u8], start: usize, level: usize) -> Vec<Part> {
    let (mut out, mut at) = (vec![], 0);
    while at < bytes.len() {
        let (kind, length) = (bytes[at], bytes[at + 1] as usize);
        let place = start + at + 2;
        out.push(Part { kind: if kind == 5 { 6 } else { kind }, level, start: place, length });
        if kind == 13 {
            out.extend(parts(&bytes[at + 2..][..length], place, level + 1));
        }
        at += 2 + length;
    }
    out
}

/// A UPID as it is read: of its reported type, with its parts.
pub fn upid(rng: &mut Rng, room: usize) -> Upid {
    if room == 0 || rng.one_in(10) {
        return Upid { kind: 0, length: 0, bytes: vec![], parts: vec![] };
    }
    let (written, bytes) = contents(rng, 1, room);
    let parts = if written == 13 { parts(&bytes, 0, 1) } else { vec![] };
    Upid { kind: if written == 5 { 6 } else { written }, length: bytes.len(), bytes, parts }
}

fn restrictions(rng: &mut Rng) -> Restrictions {
    Restrictions { web: rng.bit(), no_blackout: rng.bit(), archive: rng.bit(), device: rng.below(4) as u8 }
}

/// A segmentation that is not cancelled, whose descriptor has a length of at most 254.
fn segmentation(rng: &mut Rng) -> Segmentation {
    // identifier, event, flags; UPID type and length; three numbers
    let mut room = 254 - 4 - 6 - 2 - 3;
    let duration = rng.bit().then(|| rng.number(40));
    let sub_segments = rng.one_in(3).then(|| (rng.byte(), rng.byte()));
    room -= if duration.is_some() { 5 } else { 0 } + if sub_segments.is_some() { 2 } else { 0 };
    let components = rng.one_in(3).then(|| {
        let most = (room - 1) / 6;
        let count = match rng.below(12) {
            0 => most,
            1 => rng.below(most + 1),
            _ => rng.below(4),
        };
        room -= 1 + 6 * count;
        (0..count).map(|_| (rng.byte(), rng.number(33))).collect()
    });
    let restrictions = rng.bit().then(|| restrictions(rng));
    Segmentation {
        flags: [components.is_none(), duration.is_some(), restrictions.is_none()],
        restrictions,
        components,
        duration,
        upid: upid(rng, room),
        type_id: if rng.bit() { rng.byte() } else { rng.pick(&[0, 1, 0x10, 0x19, 0x20, 0x23, 0x30, 0x34, 0x37, 0x40, 0x50, 0x51]) },
        segment: rng.byte(),
        expected: rng.byte(),
        sub_segments,
    }
}

pub fn item(rng: &mut Rng) -> Item {
    match rng.below(12) {
        0 => Item::Avail(rng.number(32) as u32),
        1 => {
            let count = rng.below(8);
            Item::Dtmf { preroll: rng.byte(), chars: rng.bytes(count) }
        }
        2 => Item::Time { seconds: rng.number(48), nanoseconds: rng.number(32) as u32, offset: rng.number(16) as u16 },
        3 | 4 => {
            let length = match rng.below(8) {
                0 => rng.below(251),
                1 => rng.pick(&[0, 249, 250]),
                _ => rng.below(30),
            };
            let identifier = if rng.bit() { *b"CUEI" } else { [rng.pick(b"CX\0"), b'U', rng.byte(), rng.pick(b"IJ")] };
            // one of "CUEI" has tag 4 and over
            let least = if identifier == *b"CUEI" { 4 } else { 0 };
            Item::Reserved { tag: rng.between(least, 255) as u8, identifier, bytes: rng.bytes(length) }
        }
        k => Item::Segmentation { event: rng.number(32) as u32, detail: (k > 5).then(|| segmentation(rng)) },
    }
}

/// Items whose descriptors have at most `room` bytes together; now and then as many as there is room for.
pub fn items(rng: &mut Rng, room: usize) -> Vec<Item> {
    let full = rng.one_in(8);
    let (mut out, mut left) = (vec![], room);
    while full || !rng.one_in(4) {
        let x = item(rng);
        let size = super::build::descriptor(&x).expect("drawn to fit").bytes.len();
        if size > left {
            break;
        }
        left -= size;
        out.push(x);
    }
    // up to the last byte, where a reserved descriptor fits the gap
    if full && (6..=256).contains(&left) {
        out.push(Item::Reserved { tag: rng.between(4, 255) as u8, identifier: *b"CUEI", bytes: rng.bytes(left - 6) });
    }
    out
}
