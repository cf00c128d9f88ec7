//! Names of numbers, as the standard's tables have them, for people to read. Nothing is decided by them.

/// A number with its name, `52 (Provider Placement Opportunity Start)`, or alone where it has none.
pub fn named(number: u64, name: &str) -> String {
    if name.is_empty() {
        number.to_string()
    } else {
        format!("{number} ({name})")
    }
}

/// encryption_algorithm
pub fn algorithm(id: u8) -> &'static str {
    match id {
        0 => "none",
        1 => "DES ECB",
        2 => "DES CBC",
        3 => "triple DES EDE3 ECB",
        4..=31 => "reserved",
        _ => "private",
    }
}

/// splice_command_type, by the name of its structure
pub fn command(id: u8) -> &'static str {
    match id {
        0x00 => "splice_null",
        0x04 => "splice_schedule",
        0x05 => "splice_insert",
        0x06 => "time_signal",
        0x07 => "bandwidth_reservation",
        0xFF => "private_command",
        _ => "reserved",
    }
}

/// device_restrictions
pub fn devices(id: u8) -> &'static str {
    match id {
        0 => "restrict group 0",
        1 => "restrict group 1",
        2 => "restrict group 2",
        _ => "none",
    }
}

/// segmentation_upid_type
pub fn upid_type(id: u8) -> &'static str {
    match id {
        0 => "not used",
        1 => "user defined, deprecated",
        2 => "ISCI, deprecated",
        3 => "Ad-ID",
        4 => "UMID",
        5 => "ISAN, deprecated",
        6 => "ISAN",
        7 => "TID",
        8 => "TI",
        9 => "ADI",
        10 => "EIDR",
        11 => "ATSC content identifier",
        12 => "MPU",
        13 => "MID",
        14 => "ADS information",
        15 => "URI",
        _ => "reserved",
    }
}

/// Does the standard say that a UPID of this type is text? The library looks at the text of 2, 3 and 7 only.
pub fn is_text(upid_type: u8) -> bool {
    matches!(upid_type, 2 | 3 | 7 | 9 | 15)
}

/// segmentation_type_id
pub fn segmentation_type(id: u8) -> &'static str {
    match id {
        0x00 => "Not Indicated",
        0x01 => "Content Identification",
        0x10 => "Program Start",
        0x11 => "Program End",
        0x12 => "Program Early Termination",
        0x13 => "Program Breakaway",
        0x14 => "Program Resumption",
        0x15 => "Program Runover Planned",
        0x16 => "Program Runover Unplanned",
        0x17 => "Program Overlap Start",
        0x18 => "Program Blackout Override",
        0x19 => "Program Start In Progress",
        0x20 => "Chapter Start",
        0x21 => "Chapter End",
        0x22 => "Break Start",
        0x23 => "Break End",
        0x30 => "Provider Advertisement Start",
        0x31 => "Provider Advertisement End",
        0x32 => "Distributor Advertisement Start",
        0x33 => "Distributor Advertisement End",
        0x34 => "Provider Placement Opportunity Start",
        0x35 => "Provider Placement Opportunity End",
        0x36 => "Distributor Placement Opportunity Start",
        0x37 => "Distributor Placement Opportunity End",
        0x40 => "Unscheduled Event Start",
        0x41 => "Unscheduled Event End",
        0x50 => "Network Start",
        0x51 => "Network End",
        _ => "reserved",
    }
}

/// `1 byte`, `2 bytes`
pub fn bytes(n: usize) -> String {
    format!("{n} byte{}", if n == 1 { "" } else { "s" })
}

/// Ticks of 90 kHz as `h:mm:ss.mmm`, rounded down.
pub fn clock(ticks: u64) -> String {
    let milliseconds = ticks / 90;
    let seconds = milliseconds / 1000;
    format!("{}:{:02}:{:02}.{:03}", seconds / 3600, seconds / 60 % 60, seconds % 60, milliseconds % 1000)
}

/// Ticks, and as a time: `1924989008 (5:56:28.766)`.
pub fn time(ticks: u64) -> String {
    format!("{ticks} ({})", clock(ticks))
}

#[cfg(test)]
mod tests {
    use super::*;

    #[test]
    fn times() {
        assert_eq!(clock(0), "0:00:00.000");
        assert_eq!(clock(89), "0:00:00.000");
        assert_eq!(clock(90), "0:00:00.001");
        assert_eq!(clock(27_630_000), "0:05:07.000");
        // the last of 33 bits, and of 34
        assert_eq!(clock(8_589_934_591), "26:30:43.717");
        assert_eq!(clock(17_179_869_182), "53:01:27.435");
        assert_eq!(clock(u64::MAX), "56934395289:13:37.240");
    }

    /// A number has a name here exactly where the library says that it is a named one.
    #[test]
    fn names_are_the_librarys() {
        use scte35::{SegmentationTypeId, SegmentationUpidType, SpliceCommandType};
        for id in 0..=255 {
            assert_eq!(segmentation_type(id) == "reserved", matches!(SegmentationTypeId::from_id(id), SegmentationTypeId::Reserved(_)), "{id}");
            assert_eq!(upid_type(id) == "reserved", matches!(SegmentationUpidType::from_type(id), SegmentationUpidType::Reserved(_)), "{id}");
            assert_eq!(command(id) == "reserved", matches!(SpliceCommandType::from_id(id), SpliceCommandType::Reserved(_)), "{id}");
            // `ProgramStart` is "Program Start"
            let ours = segmentation_type(id).replace(' ', "");
            assert!(ours == "reserved" || ours == format!("{:?}", SegmentationTypeId::from_id(id)), "{ours}");
        }
    }
}
