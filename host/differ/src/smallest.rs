//! Each difference that docs/DIFFERENCES.md names, with its smallest input: both answers are as stated there.
use crate::answer::*;
use crate::{differences, make, ours, theirs};
use std::panic::catch_unwind;

/// The entry, what is tried, and whether both answers are as stated.
pub type Row = (u8, &'static str, bool);

fn taken(kind: u8, bytes: &[u8]) -> Result<Upid, Refusal> {
    Ok(Upid { kind, length: bytes.len(), bytes: bytes.to_vec(), parts: vec![] })
}

/// Both sides' answers to a UPID, and the entry that they fall under.
fn upid(entry: u8, kind: u8, bytes: &[u8], mine: Result<Upid, Refusal>, their: Result<Upid, Refusal>) -> bool {
    let named = differences::of_upid(kind, bytes, &mine, &their);
    ours::upid(kind, bytes) == mine && theirs::upid(kind, bytes, false) == their && named == Some(entry)
}

fn not_text(kind: u8, bytes: &[u8]) -> Result<Upid, Refusal> {
    Err(Refusal::NotText { kind, bytes: bytes.to_vec() })
}

fn empty_uri_in_a_mid() -> bool {
    let part = Part { kind: 15, level: 1, start: 2, length: 0 };
    let mine = Ok(Upid { kind: 13, length: 2, bytes: vec![15, 0], parts: vec![part] });
    upid(2, 13, &[15, 0], mine, not_text(15, &[]))
}

/// No byte below 80 is refused as type 9.
fn first_refused() -> bool {
    (0..0x80).all(|b| theirs::upid(9, &[b], false) == taken(9, &[b]))
}

/// The first UPID of type 15, by length and then by bytes, whose text the crate changes.
fn first_changed() -> bool {
    let changed = |bytes: &[u8]| theirs::upid(15, bytes, false).is_ok_and(|u| u.bytes != bytes);
    let one = (1..=255).any(|a| changed(&[a]));
    let two = (0..=255).flat_map(|a| (0..=255).map(move |b| [a, b])).find(|x| changed(x));
    !one && two == Some(*b"A:")
}

fn isan() -> bool {
    let their = Ok(Upid { kind: 6, length: 8, bytes: vec![0; 12], parts: vec![] });
    upid(4, 6, &[0; 12], taken(6, &[0; 12]), their)
}

fn panics<T>(call: impl FnOnce() -> T + std::panic::UnwindSafe) -> bool {
    catch_unwind(call).is_err()
}

fn numbers() -> bool {
    let crate_panics = panics(|| scte35_reader::NetworkIndicator::from_flag(2))
        && panics(|| scte35_reader::ReturnMode::from_flag(2))
        && panics(|| scte35_reader::DeviceRestrictions::from_bits(4));
    crate_panics
        && scte35::NetworkIndicator::from_flag(2).is_err()
        && scte35::ReturnMode::from_flag(2).is_err()
        && scte35::DeviceRestrictions::from_bits(4).is_err()
}

fn long_section() -> bool {
    let section = make::null_section(&vec![0; 4077]);
    section.len() == 4097 && ours::section(&section).0 == Section::Refused(2) && matches!(theirs::section(&section, false), Section::Accepted { .. })
}

fn long_loop() -> bool {
    let bytes = vec![0; 4077];
    let mine = Step { item: Some(Item::Refused(Refusal::TooLong)), next: 4077 };
    let their = Step { item: Some(Item::Refused(Refusal::NotEnoughData { expected: 6, actual: 2 })), next: 2 };
    ours::step(&bytes, 0) == mine && theirs::step(&bytes, 0, false) == their
}

fn empty_sections() -> bool {
    [&[][..], &[0xFC], &[0xFC, 0x30]].iter().all(|s| ours::section(s).0 == Section::Refused(1))
}

pub fn rows() -> Vec<Row> {
    std::panic::set_hook(Box::new(|_| {}));
    let rows = vec![
        (
            1,
            "type 9, 80: the crate refuses 24 (9, 80), here its one byte; no lesser byte",
            upid(1, 9, &[0x80], taken(9, &[0x80]), not_text(9, &[0x80])) && first_refused(),
        ),
        (2, "type 15, 00: the crate refuses 24 (15, 00), here its one byte", upid(2, 15, &[0], taken(15, &[0]), not_text(15, &[0]))),
        (2, "MID 0F 00: the crate refuses 24 (15, no bytes), here a part of no bytes", empty_uri_in_a_mid()),
        (
            3,
            "type 15, \"A:\": the crate keeps \"a:\", and no shorter or lesser text is changed",
            upid(3, 15, b"A:", taken(15, b"A:"), taken(15, b"a:")) && first_changed(),
        ),
        (3, "type 15, \"HTTP://A\": the crate keeps \"http://a/\"", upid(3, 15, b"HTTP://A", taken(15, b"HTTP://A"), taken(15, b"http://a/"))),
        (4, "type 6, 12 bytes of 0: the crate's length function says 8, here 12", isan()),
        (5, "a header of no bytes: the crate panics, here refusal 5", ours::header(&[]).is_none() && panics(|| theirs::header(&[]))),
        (6, "flags 2 and 2, restriction 4: the crate panics, here refusal 12", numbers()),
        (7, "a section of 4,097 bytes: the crate reads it, here refusal 2", long_section()),
        (7, "a loop of 4,077 bytes: the crate steps, here refusal 2", long_loop()),
        (7, "a UPID of 256 bytes: refusal 2 (the crate has its length from a byte)", ours::upid(1, &[0; 256]) == Err(Refusal::TooLong)),
        (8, "sections of 0, 1 and 2 bytes: refusal 1 (the crate is not handed one)", empty_sections()),
    ];
    let _ = std::panic::take_hook();
    rows
}
