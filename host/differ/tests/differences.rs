//! A named difference is recognised by both answers: the same input with another answer of the port is no named difference.
use differ::answer::*;
use differ::{differences, make, ours, theirs};

fn taken(kind: u8, bytes: &[u8]) -> Result<Upid, Refusal> {
    Ok(Upid { kind, length: bytes.len(), bytes: bytes.to_vec(), parts: vec![] })
}

fn entry(kind: u8, bytes: &[u8], mine: &Result<Upid, Refusal>) -> Option<u8> {
    differences::of_upid(kind, bytes, mine, &theirs::upid(kind, bytes, false))
}

#[test]
fn only_the_stated_answer() {
    assert_eq!(entry(9, &[0xFF], &taken(9, &[0xFF])), Some(1));
    assert_eq!(entry(9, &[0xFF], &taken(9, &[0xFE])), None);
    assert_eq!(entry(9, &[0xFF], &taken(12, &[0xFF])), None);
    assert_eq!(entry(9, &[0xFF], &Err(Refusal::Untyped)), None);
    assert_eq!(entry(15, b"HTTP://A", &taken(15, b"HTTP://A")), Some(3));
    assert_eq!(entry(15, b"HTTP://A", &taken(15, b"http://a")), None);
    assert_eq!(entry(6, &[0; 12], &taken(6, &[0; 12])), Some(4));
    assert_eq!(entry(6, &[0; 12], &taken(5, &[0; 12])), None);
    // no difference of these types
    assert_eq!(entry(2, &[0xFF; 8], &taken(2, &[0xFF; 8])), None);
    assert_eq!(entry(12, &[1, 2], &taken(12, &[1, 3])), None);
}

/// A MID with an ADI that is no text, and a fault behind it: the crate stops at the ADI, the port must find the fault.
#[test]
fn what_stands_beside_is_compared() {
    let mid = [9, 1, 0xFF, 8, 3, 1, 2];
    assert_eq!(ours::upid(13, &mid), Err(Refusal::NotEnoughData { expected: 3, actual: 2 }));
    assert_eq!(entry(13, &mid, &Err(Refusal::NotEnoughData { expected: 3, actual: 2 })), Some(1));
    assert_eq!(entry(13, &mid, &Err(Refusal::NotEnoughData { expected: 3, actual: 1 })), None);
    let whole = [9, 1, 0xFF, 12, 1, 7];
    let mut mine = ours::upid(13, &whole);
    assert_eq!(entry(13, &whole, &mine), Some(1));
    mine.as_mut().expect("taken").parts[1].start += 1;
    assert_eq!(entry(13, &whole, &mine), None);
}

#[test]
fn items() {
    let payload = [0, 0, 0, 1, 0x7F, 0xBF, 9, 1, 0xFF, 0x34, 2, 3];
    let bytes = make::framed(2, make::CUEI, &payload);
    let [mine, their] = [ours::step(&bytes, 0), theirs::step(&bytes, 0, false)].map(|t| t.item.expect("an item"));
    assert_eq!(their, Item::Refused(Refusal::NotText { kind: 9, bytes: vec![0xFF] }));
    assert_eq!(differences::of_item(&bytes, &mine, &their), Some(1));
    let Item::Segmentation { event, detail: Some(mut detail) } = mine else { panic!("a segmentation") };
    detail.segment += 1;
    let other = Item::Segmentation { event, detail: Some(detail) };
    assert_eq!(differences::of_item(&bytes, &other, &their), None);
}

#[test]
fn sizes() {
    assert_eq!(differences::of_section_size(4097, &Section::Refused(2)), Some(7));
    assert_eq!(differences::of_section_size(4096, &Section::Refused(2)), None);
    assert_eq!(differences::of_section_size(4097, &Section::Refused(3)), None);
    assert_eq!(differences::of_section_size(2, &Section::Refused(1)), Some(8));
    assert_eq!(differences::of_section_size(3, &Section::Refused(1)), None);
    let refused = |next| Step { item: Some(Item::Refused(Refusal::TooLong)), next };
    assert_eq!(differences::of_loop_size(4077, &refused(4077)), Some(7));
    assert_eq!(differences::of_loop_size(4077, &refused(4076)), None);
    assert_eq!(differences::of_loop_size(4076, &refused(4076)), None);
    assert_eq!(differences::of_upid_size(255, &Err(Refusal::TooLong)), None);
    assert_eq!(differences::of_header_size(11, &None), None);
}
