//! Identifiers replaced: the incident's cue by a method of its reading; and random relabellings beside a second derivation, RELABELLINGS of them (20,000 where
//! it is not set; host/relabellings runs a million).
mod derived;

use scte35::*;
use std::collections::BTreeMap;

#[test]
fn beside_a_second_derivation() {
    let count: usize = std::env::var("RELABELLINGS").ok().and_then(|n| n.parse().ok()).unwrap_or(20_000);
    let mut r = derived::Random(0x5EED_1234_ABCD_0042);
    let (mut met, mut canonical) = (BTreeMap::new(), 0);
    while met.values().sum::<usize>() < count {
        let Some(case) = derived::case(&mut r) else { continue };
        case.try_out();
        *met.entry(case.wanted).or_insert(0) += 1;
        canonical += usize::from(case.wanted == 0 && case.is_canonical());
    }
    println!("{met:?}, {canonical} of canonical sections");
    assert!(canonical > 0 && met.keys().copied().eq(derived::NUMBERS), "{met:?}");
}

fn unhex(digits: &str) -> Vec<u8> {
    let digits = digits.replace(' ', "");
    (0..digits.len() / 2).map(|i| u8::from_str_radix(&digits[2 * i..2 * i + 2], 16).expect("digits")).collect()
}

fn closed(digits: &str) -> Vec<u8> {
    let bytes = unhex(digits);
    [&bytes[..], &crc(&bytes).to_be_bytes()].concat()
}

const INCIDENT: &str =
    "FC303F000000000000FFFFF00506FE0000000000 29 0227435545490000002A7FBF 0D18 08081122334455667788 030C414243443132333435363738 100101";

/// The eight-byte part becomes twelve bytes long, and the other part's twelve bytes are untouched.
#[test]
fn the_incident() {
    let old = closed(INCIDENT);
    let section = read_section(&old).unwrap();
    let new = Upid::Text { upid_type: SegmentationUpidType::AdID, text: "NEWS00000001" };
    let then = closed(
        "FC3043000000000000FFFFF00506FE0000000000 2D 022B435545490000002A7FBF 0D1C 030C4E4557533030303030303031 030C414243443132333435363738 100101",
    );
    assert_eq!(section.relabel_to_vec(0, 1, &new), Ok(then.clone()));
    // and back, by the part that stood there
    let parts: Vec<_> = section.identifiers().filter(|x| x.part == 1).collect();
    let part = read_upid(parts[0].written_type().unwrap(), parts[0].bytes).unwrap();
    let mut target = [0xEE; 80];
    assert_eq!(read_section(&then).unwrap().relabel(0, 1, &part, &mut target), Ok(old.len()));
    assert_eq!((&target[..old.len()], &target[old.len()..]), (&old[..], &[0xEE; 14][..]));
    // the UPID itself
    let top = read_section(&old).unwrap().relabel_to_vec(0, 0, &new).unwrap();
    assert_eq!(
        read_section(&top).unwrap().identifiers().map(|x| (x.part, x.text().map(String::from))).collect::<Vec<_>>(),
        [(0, Some("NEWS00000001".into()))]
    );
}

/// What is no field stays: reserved bits, a refused item, spare bytes; and what was changed since is written.
#[test]
fn a_reading_keeps_its_bytes() {
    let odd = closed("FCF000 00 00 00000000 00 FFF000 00 001D 02 12 43554549 0000002A 00 9F 09 03 414243 10 01 01 00 04 43554549 07 01 00 AABB");
    let section = read_section(&odd).unwrap();
    let new = Upid::Bytes { upid_type: SegmentationUpidType::ADI, bytes: b"DEFG" };
    let then = closed("FCF031 00 00 00000000 00 FFF000 00 001E 02 13 43554549 0000002A 00 9F 09 04 44454647 10 01 01 00 04 43554549 07 01 00 AABB");
    assert_eq!(section.relabel_to_vec(0, 0, &new), Ok(then));

    let incident = closed(INCIDENT);
    let mut section = read_section(&incident).unwrap();
    section.header.tier = 1;
    let changed = section.relabel_to_vec(0, 1, &new).unwrap();
    let read = read_section(&changed).unwrap();
    assert_eq!((read.header.tier, read.command.clone()), (1, section.command.clone()));
    let made = Section::new(section.header.clone(), section.command.clone(), section.descriptors);
    assert_eq!(made, section);
    assert_eq!(made.relabel_to_vec(0, 1, &new), Ok(changed));
    // its own refusals come first: the loop is not canonical
    let made = Section::new(section.header, section.command, read_section(&odd).unwrap().descriptors);
    assert_eq!(made.relabel_to_vec(0, 0, &new), Err(Refusal::LoopNotCanonical));
}

#[test]
fn refused() {
    let old = closed(INCIDENT);
    let section = read_section(&old).unwrap();
    let text = |upid_type, text| Upid::Text { upid_type, text };
    let ad_id = text(SegmentationUpidType::AdID, "NEWS00000001");
    let long = [7; 256];
    let bytes = |upid_type, bytes| Upid::Bytes { upid_type, bytes };
    for (item, part, new, refusal) in [
        (1, 1, ad_id.clone(), Refusal::NoSuchIdentifier),
        (0, 3, ad_id.clone(), Refusal::NoSuchIdentifier),
        (0, 3, text(SegmentationUpidType::MID, "x"), Refusal::NoSuchIdentifier),
        (0, 1, bytes(SegmentationUpidType::ADI, &long), Refusal::TooLarge),
        (0, 1, text(SegmentationUpidType::AdID, "short"), Refusal::Unwritable),
        // no reader gives these: bytes of a type that is text, text of one that is not, and none
        (0, 1, bytes(SegmentationUpidType::AdID, b"NEWS00000001"), Refusal::Unwritable),
        (0, 1, text(SegmentationUpidType::ADI, "x"), Refusal::Unwritable),
        (0, 1, Upid::None, Refusal::Unwritable),
        (0, 0, bytes(SegmentationUpidType::ADI, b""), Refusal::Unwritable),
        (0, 1, bytes(SegmentationUpidType::ADI, &long[..236]), Refusal::ResultTooLong),
    ] {
        assert_eq!(section.relabel_to_vec(item, part, &new), Err(refusal), "{item} {part} {new:?}");
    }
    let mut target = [0xEE; 69];
    assert_eq!(section.relabel(0, 1, &ad_id, &mut target), Err(Refusal::TargetTooShort));
    assert_eq!(target, [0xEE; 69]);
    // an empty part
    let empty = section.relabel_to_vec(0, 1, &bytes(SegmentationUpidType::ADI, b"")).unwrap();
    assert_eq!(read_section(&empty).unwrap().identifiers().map(|x| x.len()).collect::<Vec<_>>(), [16, 0, 12]);
}
