//! Splice headers, and the numbers that have names.
use crate::rng::Rng;
use crate::run::Run;
use std::fmt::Debug;
use std::panic::catch_unwind;

pub fn short(run: &mut Run) {
    for size in 0..=14 {
        for fill in [0x00, 0x55, 0xAA, 0xFF] {
            run.header(&vec![fill; size]);
        }
    }
    for at in 0..11 {
        for byte in 0..=255 {
            for fill in [0x00, 0xFF] {
                let mut header = [fill; 11];
                header[at] = byte;
                run.header(&header);
            }
        }
    }
}

pub fn random(run: &mut Run, rng: &mut Rng, count: usize) {
    for _ in 0..count {
        let size = if rng.one_in(20) { rng.below(11) } else { rng.between(11, 40) };
        let bytes = rng.bytes(size);
        run.header(&bytes);
    }
}

/// Every number from 0 to 255 by every name function. The names are compared as both sides print them.
pub fn every_number(run: &mut Run) {
    for n in 0..=255 {
        named(run, "encryption algorithm", n, scte35::EncryptionAlgorithm::from_id(n), scte35_reader::EncryptionAlgorithm::from_id(n));
        named(run, "command type", n, scte35::SpliceCommandType::from_id(n), scte35_reader::SpliceCommandType::from_id(n));
        named(run, "UPID type", n, scte35::SegmentationUpidType::from_type(n), scte35_reader::SegmentationUpidType::from_type(n));
        named(run, "segmentation type", n, scte35::SegmentationTypeId::from_id(n), scte35_reader::SegmentationTypeId::from_id(n));
        classes(run, n);
    }
    std::panic::set_hook(Box::new(|_| {}));
    for n in 0..=255 {
        flagged(run, "network indicator", n, scte35::NetworkIndicator::from_flag(n), || scte35_reader::NetworkIndicator::from_flag(n));
        flagged(run, "return mode", n, scte35::ReturnMode::from_flag(n), || scte35_reader::ReturnMode::from_flag(n));
        flagged(run, "device restriction", n, scte35::DeviceRestrictions::from_bits(n), || scte35_reader::DeviceRestrictions::from_bits(n));
    }
    let _ = std::panic::take_hook();
}

fn named(run: &mut Run, what: &'static str, n: u8, mine: impl Debug, their: impl Debug) {
    run.number(what, n, format!("{mine:?}"), format!("{their:?}"), None);
}

/// Whether the proved functions class a number (named, reserved, private) as the crate's names do.
fn classes(run: &mut Run, n: u8) {
    let class = |name: String| match name {
        name if name.starts_with("Reserved") => 1,
        name if name.starts_with("Private(") => 2,
        _ => 0,
    };
    let pairs = [
        ("algorithm's class", scte35::raw::classify_algorithm(n), format!("{:?}", scte35_reader::EncryptionAlgorithm::from_id(n))),
        ("command type's class", scte35::raw::classify_command_type(n), format!("{:?}", scte35_reader::SpliceCommandType::from_id(n))),
        ("UPID type's class", scte35::raw::classify_upid_type(n), format!("{:?}", scte35_reader::SegmentationUpidType::from_type(n))),
        ("segmentation type's class", scte35::raw::classify_segmentation_type(n), format!("{:?}", scte35_reader::SegmentationTypeId::from_id(n))),
    ];
    for (what, mine, their) in pairs {
        let their = scte35::raw::Number { refusal: 0, class: class(their), number: n.into() };
        named(run, what, n, mine, their);
    }
}

/// A flag: the crate panics where the port refuses.
fn flagged<T: Debug>(
    run: &mut Run,
    what: &'static str,
    n: u8,
    mine: Result<impl Debug, scte35::Refusal>,
    their: impl FnOnce() -> T + std::panic::UnwindSafe,
) {
    let their = catch_unwind(their);
    let entry = (mine.is_err() && their.is_err()).then_some(6);
    let mine = mine.map_or_else(|_| "refused".to_string(), |x| format!("{x:?}"));
    let their = their.map_or_else(|_| "panics".to_string(), |x| format!("{x:?}"));
    run.number(what, n, mine, their, entry);
}
