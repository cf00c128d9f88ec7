//! Well-formed parts, from which the inputs are made; what is wrong with an input is put in afterwards.
use crate::bits::Bits;
use crate::rng::Rng;
use mpeg2ts_reader::mpegts_crc::sum32;

pub const CUEI: [u8; 4] = *b"CUEI";

/// The bytes and their CRC.
pub fn closed(mut body: Vec<u8>) -> Vec<u8> {
    let crc = sum32(&body);
    body.extend(crc.to_be_bytes());
    body
}

/// The same bytes with a CRC that fits them.
pub fn closed_again(mut section: Vec<u8>) -> Vec<u8> {
    section.truncate(section.len().saturating_sub(4));
    closed(section)
}

/// A section of these parts, with lengths that fit and a right CRC. `spare` stands before the CRC.
pub fn section(rng: &mut Rng, kind: u8, command: &[u8], items: &[u8], spare: &[u8]) -> Vec<u8> {
    let length = 11 + command.len() + 2 + items.len() + spare.len() + 4;
    let start = Bits::default()
        .put(8, 0xFC)
        .put(4, 3)
        .put(12, length as u64)
        .put(8, rng.number(8))
        .flag(false)
        .put(6, rng.number(6))
        .put(33, rng.number(33))
        .put(8, rng.number(8))
        .put(12, rng.number(12))
        .put(12, command.len() as u64)
        .put(8, kind.into())
        .bytes;
    let size = (items.len() as u16).to_be_bytes();
    closed([&start[..], command, &size[..], items, spare].concat())
}

/// A null command around a loop, all else 0.
pub fn null_section(items: &[u8]) -> Vec<u8> {
    let mut start = vec![0xFC, 0, 0];
    start.extend([0; 11]);
    start.extend((items.len() as u16).to_be_bytes());
    closed([&start[..], items].concat())
}

fn splice_time(rng: &mut Rng, bits: Bits) -> Bits {
    if rng.one_in(4) {
        bits.flag(false).put(7, rng.number(7))
    } else {
        bits.flag(true).put(6, rng.number(6)).put(33, rng.number(33))
    }
}

pub fn time_signal(rng: &mut Rng) -> Vec<u8> {
    splice_time(rng, Bits::default()).bytes
}

pub fn private(rng: &mut Rng, length: usize) -> Vec<u8> {
    Bits::default().put(32, rng.number(32)).all(&rng.bytes(length)).bytes
}

pub fn insert(rng: &mut Rng) -> Vec<u8> {
    let cancelled = rng.one_in(8);
    let bits = Bits::default().put(32, rng.number(32)).flag(cancelled).put(7, rng.number(7));
    if cancelled {
        return bits.bytes;
    }
    let (program, lasts, immediate) = (rng.one_in(2), rng.bit(), rng.one_in(3));
    let mut bits = bits.flag(rng.bit()).flag(program).flag(lasts).flag(immediate).put(4, rng.number(4));
    if program {
        if !immediate {
            bits = splice_time(rng, bits);
        }
    } else {
        let count = if rng.one_in(40) { rng.pick(&[254, 255]) } else { rng.below(6) };
        bits = bits.put(8, count as u64);
        for _ in 0..count {
            bits = bits.put(8, rng.number(8));
            if !immediate {
                bits = splice_time(rng, bits);
            }
        }
    }
    if lasts {
        bits = bits.flag(rng.bit()).put(6, rng.number(6)).put(33, rng.number(33));
    }
    bits.put(16, rng.number(16)).put(8, rng.number(8)).put(8, rng.number(8)).bytes
}

/// A command's type and payload.
pub fn command(rng: &mut Rng) -> (u8, Vec<u8>) {
    match rng.below(10) {
        0 => (0x00, vec![]),
        1 => (0x07, vec![]),
        2 => {
            let length = rng.below(20);
            (0xFF, private(rng, length))
        }
        3..=5 => (0x06, time_signal(rng)),
        _ => (0x05, insert(rng)),
    }
}

/// Text of exactly so many bytes.
pub fn text(rng: &mut Rng, length: usize) -> Vec<u8> {
    let mut out = vec![];
    while out.len() < length {
        let point = match rng.below(8) {
            0 => rng.pick(&[0x7F, 0x80, 0x7FF, 0x800, 0xD7FF, 0xE000, 0xFFFF, 0x1_0000, 0x10_FFFF]),
            1 => rng.below(0x11_0000) as u32,
            _ => rng.between(0x20, 0x7E) as u32,
        };
        let mut buffer = [0; 4];
        let character = char::from_u32(point).unwrap_or('A').encode_utf8(&mut buffer).as_bytes();
        if out.len() + character.len() <= length {
            out.extend(character);
        }
    }
    out
}

/// A UPID's type and bytes, at most `room` of them, that the rules take.
pub fn upid(rng: &mut Rng, room: usize) -> (u8, Vec<u8>) {
    const KINDS: [(u8, usize); 10] = [(2, 8), (3, 12), (4, 32), (5, 8), (6, 12), (7, 12), (8, 8), (10, 12), (13, 0), (16, 0)];
    let (kind, length) = rng.pick(&KINDS);
    match kind {
        13 => (13, mid(rng, room)),
        16 => other(rng, room),
        _ if length > room => (13, vec![]),
        2 | 3 | 7 => (kind, text(rng, length)),
        _ => (kind, rng.bytes(length)),
    }
}

// Of a type whose bytes the rules leave untested; text of ADI and URI is such that the crate takes it too, or not.
fn other(rng: &mut Rng, room: usize) -> (u8, Vec<u8>) {
    let length = rng.below(room.min(40) + 1);
    match rng.below(12) {
        0 => (9, text(rng, length)),
        1 => (9, rng.bytes(length)),
        2 => (15, rng.bytes(length)),
        3 => (15, address(rng, room)),
        4 => (15, text(rng, length)),
        _ => (rng.pick(&[1, 11, 12, 14, 16, 17, 100, 254, 255]), rng.bytes(length)),
    }
}

// A URL, one in the form that the URL parser gives it or in another.
fn address(rng: &mut Rng, room: usize) -> Vec<u8> {
    const ADDRESSES: [&str; 8] =
        ["HTTP://A", "http://a/", "urn:uuid:f81d4fae", "a:", "A:", "http://a/../b?c d#e", "x://[::0]:80/", "http://b\u{fc}cher/"];
    let chosen = rng.pick(&ADDRESSES).as_bytes();
    chosen[..if chosen.len() > room { 0 } else { chosen.len() }].to_vec()
}

/// Parts of a MID, in at most `room` bytes; MIDs inside it now and then.
pub fn mid(rng: &mut Rng, room: usize) -> Vec<u8> {
    let mut out = vec![];
    while out.len() + 2 <= room && !rng.one_in(4) {
        let (kind, bytes) = upid(rng, (room - out.len() - 2).min(255));
        out.extend([kind, bytes.len() as u8]);
        out.extend(bytes);
    }
    out
}

/// A MID inside a MID, `levels` deep with the top one, around `inner`: the top one's bytes.
pub fn nested(levels: usize, inner: &[u8]) -> Vec<u8> {
    (1..levels).fold(inner.to_vec(), |inside, _| [&[13, inside.len() as u8][..], &inside].concat())
}

/// The payload of a segmentation descriptor.
pub fn segmentation(rng: &mut Rng) -> Vec<u8> {
    let cancelled = rng.one_in(10);
    let bits = Bits::default().put(32, rng.number(32)).flag(cancelled).put(7, rng.number(7));
    if cancelled {
        return bits.bytes;
    }
    let (program, lasts) = (!rng.one_in(3), rng.bit());
    let mut bits = bits.flag(program).flag(lasts).put(6, rng.number(6));
    let mut room = 230;
    if !program {
        let most = if rng.one_in(8) { 38 } else { 4 };
        let count = rng.between(0, most);
        room -= 6 * count;
        bits = bits.put(8, count as u64);
        for _ in 0..count {
            bits = bits.put(8, rng.number(8)).put(7, rng.number(7)).put(33, rng.number(33));
        }
    }
    if lasts {
        bits = bits.put(40, rng.number(40));
    }
    let (kind, bytes) = if rng.one_in(8) { (rng.byte(), vec![]) } else { upid(rng, room) };
    bits = bits.put(8, kind.into()).put(8, bytes.len() as u64).all(&bytes);
    let type_id = if rng.bit() { rng.pick(&[0, 1, 0x10, 0x19, 0x20, 0x23, 0x30, 0x34, 0x37, 0x40, 0x50, 0x51]) } else { rng.number(8) };
    bits = bits.put(8, type_id).put(8, rng.number(8)).put(8, rng.number(8));
    if rng.one_in(3) {
        bits = bits.put(8, rng.number(8)).put(8, rng.number(8));
    }
    bits.bytes
}

/// Tag, length, identifier and payload.
pub fn framed(tag: u8, identifier: [u8; 4], payload: &[u8]) -> Vec<u8> {
    [&[tag, (4 + payload.len()) as u8], &identifier[..], payload].concat()
}

/// A descriptor that the rules take.
pub fn descriptor(rng: &mut Rng) -> Vec<u8> {
    match rng.below(12) {
        0 => framed(0, CUEI, &rng.bytes(4)),
        1 => {
            let count = rng.below(8);
            let bits = Bits::default().put(8, rng.number(8)).put(3, count as u64).put(5, rng.number(5));
            framed(1, CUEI, &bits.all(&rng.bytes(count)).bytes)
        }
        2 => framed(3, CUEI, &rng.bytes(12)),
        3 => {
            let length = rng.below(30);
            let (tag, payload) = (rng.between(4, 255) as u8, rng.bytes(length));
            framed(tag, CUEI, &payload)
        }
        4 => {
            let length = if rng.one_in(6) { 250 } else { rng.below(30) };
            let identifier = [rng.pick(&[b'C', b'X', 0]), b'U', b'E', rng.pick(&[b'I', b'J'])];
            let (tag, payload) = (rng.below(6) as u8, rng.bytes(length));
            framed(tag, identifier, &payload)
        }
        _ => {
            let payload = segmentation(rng);
            framed(2, CUEI, &payload[..payload.len().min(250)])
        }
    }
}

/// Descriptors one after another, in at most `room` bytes.
pub fn items(rng: &mut Rng, room: usize) -> Vec<u8> {
    let mut out = vec![];
    while !rng.one_in(4) {
        let next = descriptor(rng);
        if out.len() + next.len() > room {
            break;
        }
        out.extend(next);
    }
    out
}

/// Something wrong, or only other: a byte changed, taken out or put in, a piece cut off or doubled, bytes at the end.
pub fn damaged(rng: &mut Rng, mut bytes: Vec<u8>) -> Vec<u8> {
    for _ in 0..rng.between(1, 3) {
        if bytes.is_empty() {
            bytes.push(rng.byte());
            continue;
        }
        let at = rng.below(bytes.len());
        match rng.below(8) {
            0 => bytes.truncate(at),
            1 => bytes.push(rng.byte()),
            2 => drop(bytes.remove(at)),
            3 => bytes.insert(at, rng.byte()),
            4 => bytes[at] ^= 1 << rng.below(8),
            5 => bytes[at] = bytes[at].wrapping_add(rng.pick(&[1, 255])),
            _ => bytes[at] = rng.byte(),
        }
    }
    bytes
}

/// A damaged copy with a right CRC: the lengths, the type and the encrypted bit more often than the rest.
pub fn refitted(rng: &mut Rng, mut section: Vec<u8>) -> Vec<u8> {
    let loop_at = 14 + (usize::from(section[11] & 15) << 8 | usize::from(section[12]));
    match rng.below(8) {
        0 => section[4] |= 0x80,
        1 => section[12] = section[12].wrapping_add(rng.pick(&[1, 2, 255, 254])),
        2 => section[loop_at + 1] = section[loop_at + 1].wrapping_add(rng.pick(&[1, 2, 255, 254])),
        3 => section[13] = rng.byte(),
        4 => section[11] ^= 1 << rng.below(4),
        5 => section.truncate(rng.below(section.len() + 1)),
        _ => section = damaged(rng, section),
    }
    closed_again(section)
}
