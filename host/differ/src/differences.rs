//! The differences that docs/DIFFERENCES.md names, each recognised by what it says there and by nothing else.
use crate::answer::*;
use crate::theirs;

/// Entries 1 to 3 concern types 9 and 15, whose bytes the crate tests and the port does not. The reserved types 137 and 143 stand
/// for them where the crate is to leave the bytes untested: it treats all reserved types alike.
fn untested_kind(kind: u8) -> u8 {
    match kind {
        9 => 137,
        15 => 143,
        _ => kind,
    }
}

/// A UPID of the same lengths with these types put in, at top level and in every part that the heads announce.
fn untested(kind: u8, bytes: &[u8]) -> (u8, Vec<u8>) {
    let mut out = bytes.to_vec();
    let mut at = 0;
    while kind == 13 && at + 2 <= bytes.len() {
        let (part, length) = (bytes[at], bytes[at + 1] as usize);
        let Some(payload) = bytes.get(at + 2..at + 2 + length) else {
            break;
        };
        let (other, inner) = untested(part, payload);
        out[at] = other;
        out[at + 2..at + 2 + length].copy_from_slice(&inner);
        at += 2 + length;
    }
    (untested_kind(kind), out)
}

/// What the port says of a UPID, in the same terms.
fn as_untested(u: &Upid) -> Upid {
    let (kind, bytes) = untested(u.kind, &u.bytes);
    let parts = u.parts.iter().map(|p| Part { kind: untested_kind(p.kind), ..p.clone() }).collect();
    Upid { kind, length: u.length, bytes, parts }
}

/// Which of entries 1 to 3 the crate's answer shows, if any.
fn shown(theirs: &Result<&Upid, &Refusal>) -> Option<u8> {
    match theirs {
        Err(Refusal::NotText { kind: 9, bytes }) if std::str::from_utf8(bytes).is_err() => Some(1),
        Err(Refusal::NotText { kind: 15, bytes }) if !is_url(bytes) => Some(2),
        Ok(u) if u.kind == 15 || u.parts.iter().any(|p| p.kind == 15) => Some(3),
        _ => None,
    }
}

fn is_url(bytes: &[u8]) -> bool {
    std::str::from_utf8(bytes).is_ok_and(|text| url::Url::parse(text).is_ok())
}

/// The entry that a UPID's two answers fall under.
pub fn of_upid(kind: u8, bytes: &[u8], ours: &Result<Upid, Refusal>, their: &Result<Upid, Refusal>) -> Option<u8> {
    if *ours == theirs::upid(kind, bytes, true) {
        return Some(4);
    }
    let entry = shown(&their.as_ref())?;
    let (other, inner) = untested(kind, bytes);
    let expected = theirs::upid(other, &inner, true);
    (ours.as_ref().map(as_untested).map_err(Clone::clone) == expected).then_some(entry)
}

/// Where an item has its UPID: the place of the type, of which length and bytes follow.
fn upid_place(item: &[u8]) -> Option<usize> {
    if item.first() != Some(&2) || item.get(2..6) != Some(b"CUEI") || item.get(10)? & 0x80 != 0 {
        return None;
    }
    let flags = item.get(11)?;
    let mut at = 12;
    if flags & 0x80 == 0 {
        at += 1 + 6 * *item.get(at)? as usize;
    }
    if flags & 0x40 != 0 {
        at += 5;
    }
    let length = *item.get(at + 1)? as usize;
    item.get(at + 2..at + 2 + length).map(|_| at)
}

fn upid_in(item: &Item) -> Option<Result<&Upid, &Refusal>> {
    match item {
        Item::Refused(r) => Some(Err(r)),
        Item::Segmentation { detail: Some(s), .. } => Some(Ok(&s.upid)),
        _ => None,
    }
}

/// The entry that the two answers to an item fall under; `bytes` are the item's.
pub fn of_item(bytes: &[u8], ours: &Item, their: &Item) -> Option<u8> {
    if Some(ours) == theirs::step(bytes, 0, true).item.as_ref() {
        return Some(4);
    }
    let place = upid_place(bytes)?;
    let entry = shown(&upid_in(their)?)?;
    let mut other = bytes.to_vec();
    let end = place + 2 + bytes[place + 1] as usize;
    let (kind, inner) = untested(bytes[place], &bytes[place + 2..end]);
    other[place] = kind;
    other[place + 2..end].copy_from_slice(&inner);
    let mut expected = ours.clone();
    if let Item::Segmentation { detail: Some(s), .. } = &mut expected {
        s.upid = as_untested(&s.upid);
    }
    (Some(expected) == theirs::step(&other, 0, true).item).then_some(entry)
}

/// 7, and 8 for a section under 3 bytes, which the demultiplexer never hands over.
pub fn of_section_size(size: usize, ours: &Section) -> Option<u8> {
    match (size, ours) {
        (4097.., Section::Refused(2)) => Some(7),
        (0..=2, Section::Refused(1)) => Some(8),
        _ => None,
    }
}

/// 7: a loop of over 4,076 bytes is refused at every offset, and has no next item.
pub fn of_loop_size(size: usize, ours: &Step) -> Option<u8> {
    let refused = Step { item: Some(Item::Refused(Refusal::TooLong)), next: size };
    (size > 4076 && *ours == refused).then_some(7)
}

/// 7: the crate has a UPID's length from a byte, and no UPID of over 255 bytes can be handed to it.
pub fn of_upid_size(size: usize, ours: &Result<Upid, Refusal>) -> Option<u8> {
    (size > 255 && *ours == Err(Refusal::TooLong)).then_some(7)
}

/// 5: the crate panics on a header of under 11 bytes.
pub fn of_header_size(size: usize, ours: &Option<Header>) -> Option<u8> {
    (size < 11 && ours.is_none()).then_some(5)
}
