//! Random cues as JSON, and what holds of each.
use crate::layout::{self, Kind};
use serde_json::{json, Value};

/// xorshift64*, from a seed that is not 0.
pub struct Random(pub u64);

impl Random {
    fn next(&mut self) -> u64 {
        self.0 ^= self.0 >> 12;
        self.0 ^= self.0 << 25;
        self.0 ^= self.0 >> 27;
        self.0.wrapping_mul(0x2545_F491_4F6C_DD1D)
    }

    fn below(&mut self, n: u64) -> u64 {
        (self.next() >> 11) % n
    }

    /// A number of so many bits; often the smallest or the largest.
    fn bits(&mut self, n: u32) -> u64 {
        match self.below(8) {
            0 => 0,
            1 => (1 << n) - 1,
            _ => self.next() >> (64 - n),
        }
    }

    fn flag(&mut self) -> bool {
        self.below(2) == 1
    }

    fn bytes(&mut self, n: u64) -> Vec<u8> {
        (0..n).map(|_| self.next() as u8).collect()
    }
}

fn run(bytes: &[u8]) -> Value {
    json!({ "hex": hex::encode(bytes) })
}

fn time(r: &mut Random) -> Value {
    match r.flag() {
        true => json!({ "time_specified_flag": true, "pts_time": r.bits(33) }),
        false => json!({ "time_specified_flag": false }),
    }
}

fn insert(r: &mut Random) -> Value {
    let mut x = json!({ "splice_event_id": r.bits(32), "splice_event_cancel_indicator": r.below(4) == 0, "reserved": 127 });
    if x["splice_event_cancel_indicator"] == true {
        return x;
    }
    let (program, duration, count) = (r.flag(), r.flag(), r.below(5));
    // of none it is not told
    let immediate = (program || count > 0) && r.flag();
    x["out_of_network_indicator"] = r.flag().into();
    x["program_splice_flag"] = program.into();
    x["duration_flag"] = duration.into();
    x["splice_immediate_flag"] = immediate.into();
    if program && !immediate {
        x["splice_time"] = time(r);
    }
    if !program {
        let component = |r: &mut Random| match immediate {
            true => json!({ "component_tag": r.bits(8) }),
            false => json!({ "component_tag": r.bits(8), "splice_time": time(r) }),
        };
        x["components"] = (0..count).map(|_| component(r)).collect();
    }
    if duration {
        x["break_duration"] = json!({ "auto_return": r.flag(), "duration": r.bits(33) });
    }
    x["unique_program_id"] = r.bits(16).into();
    x["avail_num"] = r.bits(8).into();
    x["avails_expected"] = r.bits(8).into();
    x
}

/// A type as reported with bytes that go with it; the type as written stands first.
fn upid(r: &mut Random, room: u64, level: u64) -> (u8, u8, Vec<u8>) {
    let text = |r: &mut Random, n: u64| (0..n).map(|_| b' ' + r.below(95) as u8).collect::<Vec<u8>>();
    let (written, length) =
        [(0, 0), (2, 8), (3, 12), (4, 32), (5, 8), (6, 12), (7, 12), (8, 8), (10, 12), (9, 255), (12, 255), (13, 255), (15, 255), (200, 255)]
            [r.below(14) as usize];
    let length = if length == 255 { 1 + r.below(room.clamp(1, 40)) } else { length };
    match written {
        0 => (0, 0, vec![]),
        2 | 3 | 7 => (written, written, text(r, length)),
        5 => (5, 6, r.bytes(length)),
        13 => {
            let mut bytes = vec![];
            for _ in 0..r.below(4) {
                let (written, _, part) = if level < 4 { upid(r, 20, level + 1) } else { (8, 8, r.bytes(8)) };
                // a part of type 0 is refused
                if written != 0 && bytes.len() + part.len() < 120 {
                    bytes.extend([written, part.len() as u8]);
                    bytes.extend(part);
                }
            }
            if bytes.is_empty() && level == 0 {
                return (0, 0, vec![]);
            }
            (13, 13, bytes)
        }
        _ => (written, written, r.bytes(length)),
    }
}

fn segmentation(r: &mut Random) -> Value {
    let mut x = json!({ "segmentation_event_id": r.bits(32), "segmentation_event_cancel_indicator": r.below(6) == 0 });
    if x["segmentation_event_cancel_indicator"] == true {
        return x;
    }
    let (program, duration, free) = (r.flag(), r.flag(), r.flag());
    x["program_segmentation_flag"] = program.into();
    x["segmentation_duration_flag"] = duration.into();
    x["delivery_not_restricted_flag"] = free.into();
    if !free {
        x["web_delivery_allowed_flag"] = r.flag().into();
        x["no_regional_blackout_flag"] = r.flag().into();
        x["archive_allowed_flag"] = r.flag().into();
        x["device_restrictions"] = r.bits(2).into();
    }
    if !program {
        let component = |r: &mut Random| json!({ "component_tag": r.bits(8), "pts_offset": r.bits(33) });
        x["components"] = (0..r.below(5)).map(|_| component(r)).collect();
    }
    if duration {
        x["segmentation_duration"] = r.bits(40).into();
    }
    let (_, reported, bytes) = upid(r, 100, 0);
    x["segmentation_upid"] = json!({ "segmentation_upid_type": reported, "hex": hex::encode(bytes) });
    x["segmentation_type_id"] = r.bits(8).into();
    x["segment_num"] = r.bits(8).into();
    x["segments_expected"] = r.bits(8).into();
    if r.flag() {
        x["sub_segment_num"] = r.bits(8).into();
        x["sub_segments_expected"] = r.bits(8).into();
    }
    x
}

fn descriptor(r: &mut Random) -> Value {
    match r.below(8) {
        0 => json!({ "avail_descriptor": { "provider_avail_id": r.bits(32) } }),
        1 => {
            let count = r.below(8);
            json!({ "DTMF_descriptor": { "preroll": r.bits(8), "DTMF_char": run(&r.bytes(count)) } })
        }
        2 => json!({ "time_descriptor": { "TAI_seconds": r.bits(48), "TAI_ns": r.bits(32), "UTC_offset": r.bits(16) } }),
        3 => {
            let length = r.below(60);
            json!({ "splice_descriptor": { "splice_descriptor_tag": 4 + r.below(252), "identifier": run(&r.bytes(4)), "private_byte": run(&r.bytes(length)) } })
        }
        _ => json!({ "segmentation_descriptor": segmentation(r) }),
    }
}

/// A cue as JSON, with the names alone that `make` asks for.
pub fn object(r: &mut Random) -> Value {
    let mut x = json!({ "protocol_version": r.bits(8), "encrypted_packet": false, "encryption_algorithm": r.bits(6), "pts_adjustment": r.bits(33),
        "cw_index": r.bits(8), "tier": r.bits(12) });
    match r.below(6) {
        0 => x["splice_null"] = json!({}),
        1 => x["bandwidth_reservation"] = json!({}),
        2 => x["time_signal"] = json!({ "splice_time": time(r) }),
        3 => {
            let length = r.below(60);
            x["private_command"] = json!({ "identifier": run(&r.bytes(4)), "private_byte": run(&r.bytes(length)) });
        }
        _ => x["splice_insert"] = insert(r),
    }
    x["descriptors"] = (0..r.below(6)).map(|_| descriptor(r)).collect();
    x
}

/// Is all that the first one says said by the second?
fn is_in(small: &Value, large: &Value) -> bool {
    match (small, large) {
        (Value::Object(a), Value::Object(b)) => a.iter().all(|(name, value)| b.get(name).is_some_and(|other| is_in(value, other))),
        (Value::Array(a), Value::Array(b)) => a.len() == b.len() && a.iter().zip(b).all(|(x, y)| is_in(x, y)),
        (Value::String(a), Value::String(b)) => a.eq_ignore_ascii_case(b),
        _ => small == large,
    }
}

/// What is made reads as what was said; every byte of it has its row, every identifier's place and length is that of its row.
#[test]
fn made_and_read() {
    let mut random = Random(7);
    for _ in 0..1_000 {
        let object = object(&mut random);
        let bytes = super::section(object.clone()).unwrap_or_else(|fault| panic!("{fault}: {object}"));
        assert!(scte35::is_canonical_section(&bytes), "{object}");
        let section = scte35::read_section(&bytes).unwrap();
        let shown = serde_json::to_value(super::Accepted { cue: 1, bytes: &bytes, section: &section }).unwrap();
        assert!(is_in(&object, &shown), "{object}\n{shown}");
        rows_cover(&bytes, &section);
    }
}

/// The rows are the section's bytes in order, none spare where it is canonical, and its identifiers are rows.
fn rows_cover(bytes: &[u8], section: &scte35::Section<'_>) {
    let rows = layout::rows(bytes, section);
    let mut at = 0;
    for row in &rows {
        assert_eq!(row.at, at, "{row:?}");
        assert_ne!(row.kind, Kind::Spare, "{row:?} of {}", hex::encode(bytes));
        at += row.len;
    }
    assert_eq!(at, bytes.len());
    let runs: Vec<_> = rows.iter().filter(|row| matches!(row.kind, Kind::Identifier(_))).map(|row| (row.at, row.len)).collect();
    let is_mid = |x: &scte35::Identifier<'_>| x.upid_type == Some(scte35::SegmentationUpidType::MID);
    let expected: Vec<_> = section.identifiers().filter(|x| x.len() > 0 && !is_mid(x)).map(|x| (x.at, x.len())).collect();
    assert_eq!(runs, expected, "{}", hex::encode(bytes));
    for x in section.identifiers() {
        assert_eq!(layout::part(bytes, x.at, x.len()), x.bytes);
    }
}

/// Real output, of every kind of cue, command, item and refusal, is as docs/cue.schema.json says.
#[test]
fn output_is_held_to_the_schema() {
    use crate::verbs::tests::{around, cue, refused_items, refused_sections};
    let mut random = Random(35);
    let objects: String = (0..500).map(|_| format!("{}\n", object(&mut random))).collect();
    let made = cue(&["make", "--to", "hex"]).write_stdin(objects).output().unwrap();
    let mut cues = String::from_utf8(made.stdout).unwrap();
    for (_, digits) in refused_sections() {
        cues += &format!("{digits}\n");
    }
    for (_, item, _) in refused_items() {
        cues += &format!("{}\n", around(&item));
    }
    let mut count = cues.lines().count();
    let mut shown = cue(&["show", "--json", "--as", "hex", "-"]).write_stdin(cues.clone()).output().unwrap().stdout;
    // those of a playlist have the line's own beside them; of the refused ones no line is written
    let lines = cue(&["daterange", "--id", "1", "--date", "now", "--as", "hex", "-"]).write_stdin(cues).output().unwrap().stdout;
    let lines = [lines, b"#EXT-X-DATERANGE:ID=\"\",START-DATE=\"\",SCTE35-IN=0xFC30\n".to_vec()].concat();
    count += lines.iter().filter(|b| **b == b'\n').count();
    shown.extend(cue(&["daterange", "--read", "--json"]).write_stdin(lines).output().unwrap().stdout);
    let here = std::path::Path::new(env!("CARGO_MANIFEST_DIR"));
    let held = assert_cmd::Command::new("/usr/bin/python3")
        .arg(here.join("tests/held.py"))
        .arg(here.join("../../docs/cue.schema.json"))
        .write_stdin(shown)
        .output();
    let held = held.expect("python3, with python3-jsonschema");
    assert_eq!(String::from_utf8_lossy(&held.stdout).trim_end(), count.to_string(), "{}", String::from_utf8_lossy(&held.stderr));
}
