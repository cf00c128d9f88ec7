// The crate's answers as `answer`'s. Included for the unchanged crate and for the one with doors, as `c`.
// Private fields of four small structs are reached by serde; all else is public.
use crate::answer::*;

fn field<T: serde::Serialize>(value: &T, name: &str) -> serde_json::Value {
    serde_json::to_value(value).expect("serializes")[name].take()
}

fn number<T: serde::Serialize>(value: &T, name: &str) -> u64 {
    field(value, name).as_u64().expect("a number")
}

// The number that the crate reads as this name.
fn id_of<T: PartialEq>(name: &T, from: impl Fn(u8) -> T) -> u8 {
    (0..=255).find(|i| from(*i) == *name).expect("an id")
}

fn upid_type(t: c::SegmentationUpidType) -> u8 {
    id_of(&t, c::SegmentationUpidType::from_type)
}

#[allow(dead_code)] // a header is read by the unchanged crate only
pub fn header(h: &c::SpliceInfoHeader<'_>) -> Header {
    Header {
        protocol_version: h.protocol_version(),
        encrypted: h.encrypted_packet(),
        algorithm: id_of(&h.encryption_algorithm(), c::EncryptionAlgorithm::from_id),
        pts_adjustment: h.pts_adjustment(),
        cw_index: h.cw_index(),
        tier: h.tier(),
        command_length: h.splice_command_length(),
        command_type: id_of(&h.splice_command_type(), c::SpliceCommandType::from_id),
    }
}

fn time(t: &c::SpliceTime) -> Time {
    match t {
        c::SpliceTime::Immediate => Time::Immediate,
        c::SpliceTime::Timed(None) => Time::Unspecified,
        c::SpliceTime::Timed(Some(ticks)) => Time::At(*ticks),
    }
}

// A time in a private field, by its serde form.
fn time_value(v: &serde_json::Value) -> Time {
    if v == "Immediate" {
        return Time::Immediate;
    }
    v["Timed"].as_u64().map_or(Time::Unspecified, Time::At)
}

pub fn command(x: &c::SpliceCommand) -> Command {
    match x {
        c::SpliceCommand::SpliceNull {} => Command::Null,
        c::SpliceCommand::BandwidthReservation {} => Command::Bandwidth,
        c::SpliceCommand::PrivateCommand { identifier, private_bytes } => Command::Private { identifier: *identifier, bytes: private_bytes.clone() },
        c::SpliceCommand::TimeSignal { splice_time } => Command::TimeSignal(time(splice_time)),
        c::SpliceCommand::SpliceInsert { splice_event_id, reserved, splice_detail } => {
            Command::Insert { event: *splice_event_id, reserved: *reserved, detail: insert(splice_detail) }
        }
        _ => unreachable!("the crate makes no other command"),
    }
}

fn insert(x: &c::SpliceInsert) -> Option<Insert> {
    let c::SpliceInsert::Insert { network_indicator, splice_mode, duration, unique_program_id, avail_num, avails_expected } = x else {
        return None;
    };
    Some(Insert {
        out: matches!(network_indicator, c::NetworkIndicator::Out),
        mode: match splice_mode {
            c::SpliceMode::Program(t) => SpliceMode::Program(time(t)),
            c::SpliceMode::Components(list) => {
                SpliceMode::Components(list.iter().map(|x| (number(x, "component_tag") as u8, time_value(&field(x, "splice_time")))).collect())
            }
        },
        duration: duration.as_ref().map(|d| (field(d, "return_mode") == "Automatic", number(d, "duration"))),
        program_id: *unique_program_id,
        avail: *avail_num,
        expected: *avails_expected,
    })
}

pub fn refusal(e: &c::SpliceDescriptorErr) -> Refusal {
    use c::SpliceDescriptorErr::*;
    match e {
        NotEnoughData { expected, actual, .. } => Refusal::NotEnoughData { expected: *expected, actual: *actual },
        InvalidDescriptorLength(255) => Refusal::DescriptorLength,
        InvalidDescriptorLength(n) => unreachable!("an item refused for its length {n}"),
        SegmentationUpidLengthTypeMismatch(_) => Refusal::Untyped,
        InvalidUpidContent { upid_type: t, bytes } => Refusal::NotText { kind: upid_type(*t), bytes: bytes.clone() },
        InvalidUpidLength { upid_type: t, expected, actual } => Refusal::WrongLength { kind: upid_type(*t), expected: *expected, actual: *actual },
    }
}

// The bytes of a UPID as the crate holds it; a MID's are put together again from its parts, whose written type is the reported
// one but for an ISAN of 8 bytes, written 5.
fn upid_bytes(u: &c::SegmentationUpid) -> Vec<u8> {
    use c::SegmentationUpid::*;
    match u {
        None => vec![],
        UserDefined(v) => v.0.clone(),
        Isci(v) => v.0.clone().into_bytes(),
        AdID(v) => v.0.clone().into_bytes(),
        IsanDeprecated(v) => v.0.clone(),
        Umid(v) => v.0.clone(),
        TID(v) => v.0.clone().into_bytes(),
        TI(v) => v.0.clone(),
        ADI(v) => v.0.clone().into_bytes(),
        EIDR(v) => v.0.to_vec(),
        ATSC(v) => v.0.clone(),
        MPU(v) => v.0.clone(),
        MID(parts) => parts.iter().flat_map(written).collect(),
        ADS(v) => v.0.clone(),
        URI(v) => v.0.as_str().as_bytes().to_vec(),
        Reserved(_, v) => v.clone(),
    }
}

fn written(part: &c::SegmentationUpid) -> Vec<u8> {
    let bytes = upid_bytes(part);
    let reported = upid_type(part.segmentation_upid_type());
    let kind = if reported == 6 && bytes.len() == 8 { 5 } else { reported };
    [vec![kind, bytes.len() as u8], bytes].concat()
}

fn add_parts(list: &[c::SegmentationUpid], level: usize, start: usize, out: &mut Vec<Part>) {
    let mut at = start;
    for part in list {
        let length = upid_bytes(part).len();
        out.push(Part { kind: upid_type(part.segmentation_upid_type()), level, start: at + 2, length });
        if let c::SegmentationUpid::MID(inner) = part {
            add_parts(inner, level + 1, at + 2, out);
        }
        at += 2 + length;
    }
}

// What the crate's length function is short of: 4 for each ISAN of 12 bytes (docs/DIFFERENCES.md, 4).
fn short_by(u: &c::SegmentationUpid) -> usize {
    match u {
        c::SegmentationUpid::IsanDeprecated(v) if v.0.len() == 12 => 4,
        c::SegmentationUpid::MID(parts) => parts.iter().map(short_by).sum(),
        _ => 0,
    }
}

pub fn upid(u: &c::SegmentationUpid, mended: bool) -> Upid {
    let mut parts = vec![];
    if let c::SegmentationUpid::MID(list) = u {
        add_parts(list, 1, 0, &mut parts);
    }
    let length = u.segmentation_upid_length() + if mended { short_by(u) } else { 0 };
    Upid { kind: upid_type(u.segmentation_upid_type()), length, bytes: upid_bytes(u), parts }
}

pub fn item(x: &Result<c::SpliceDescriptor, c::SpliceDescriptorErr>, mended: bool) -> Item {
    match x {
        Ok(d) => descriptor(d, mended),
        Err(e) => Item::Refused(refusal(e)),
    }
}

fn descriptor(d: &c::SpliceDescriptor, mended: bool) -> Item {
    match d {
        c::SpliceDescriptor::AvailDescriptor { provider_avail_id } => Item::Avail(*provider_avail_id),
        c::SpliceDescriptor::DTMFDescriptor { preroll, dtmf_chars } => Item::Dtmf { preroll: *preroll, chars: dtmf_chars.clone() },
        c::SpliceDescriptor::TimeDescriptor { tai_seconds, tai_nanoseconds, utc_offset } => {
            Item::Time { seconds: *tai_seconds, nanoseconds: *tai_nanoseconds, offset: *utc_offset }
        }
        c::SpliceDescriptor::Reserved { tag, identifier, private_bytes } => {
            Item::Reserved { tag: *tag, identifier: *identifier, bytes: private_bytes.clone() }
        }
        c::SpliceDescriptor::SegmentationDescriptor { segmentation_event_id, descriptor_detail } => {
            Item::Segmentation { event: *segmentation_event_id, detail: segmentation(descriptor_detail, mended) }
        }
    }
}

fn segmentation(x: &c::SegmentationDescriptor, mended: bool) -> Option<Segmentation> {
    let c::SegmentationDescriptor::Insert {
        program_segmentation_flag,
        segmentation_duration_flag,
        delivery_not_restricted_flag,
        delivery_restrictions,
        segmentation_mode,
        segmentation_duration,
        segmentation_upid,
        segmentation_type_id,
        segment_num,
        segments_expected,
        sub_segments,
    } = x
    else {
        return None;
    };
    Some(Segmentation {
        flags: [*program_segmentation_flag, *segmentation_duration_flag, *delivery_not_restricted_flag],
        restrictions: restrictions(delivery_restrictions),
        components: match segmentation_mode {
            c::SegmentationMode::Program => None,
            c::SegmentationMode::Component { components } => {
                Some(components.iter().map(|x| (number(x, "component_tag") as u8, number(x, "pts_offset"))).collect())
            }
        },
        duration: *segmentation_duration,
        upid: upid(segmentation_upid, mended),
        type_id: id_of(segmentation_type_id, c::SegmentationTypeId::from_id),
        segment: *segment_num,
        expected: *segments_expected,
        sub_segments: sub_segments.as_ref().map(|s| (number(s, "sub_segment_num") as u8, number(s, "sub_segments_expected") as u8)),
    })
}

fn restrictions(x: &c::DeliveryRestrictionFlags) -> Option<Restrictions> {
    let c::DeliveryRestrictionFlags::DeliveryRestrictions {
        web_delivery_allowed_flag,
        no_regional_blackout_flag,
        archive_allowed_flag,
        device_restrictions,
    } = x
    else {
        return None;
    };
    Some(Restrictions {
        web: *web_delivery_allowed_flag,
        no_blackout: *no_regional_blackout_flag,
        archive: *archive_allowed_flag,
        device: match device_restrictions {
            c::DeviceRestrictions::RestrictGroup0 => 0,
            c::DeviceRestrictions::RestrictGroup1 => 1,
            c::DeviceRestrictions::RestrictGroup2 => 2,
            c::DeviceRestrictions::None => 3,
        },
    })
}
