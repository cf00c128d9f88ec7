//! Values as those of the Rust interface.
use crate::answer::*;
use scte35::{
    DeliveryRestrictions, DeviceRestrictions, EncryptionAlgorithm, InsertComponent, InsertDetail, NetworkIndicator, ReturnMode,
    SegmentationComponent, SegmentationDetail, SegmentationTypeId, SegmentationUpidType, SpliceCommand, SpliceCommandType, SpliceDescriptor,
    SpliceDuration, SpliceInfoHeader, SpliceInsert, SpliceTime, SubSegments,
};

pub fn header(h: &Header) -> SpliceInfoHeader {
    let mut header = SpliceInfoHeader::default();
    header.protocol_version = h.protocol_version;
    header.encrypted_packet = h.encrypted;
    header.encryption_algorithm = EncryptionAlgorithm::from_id(h.algorithm);
    header.pts_adjustment = h.pts_adjustment;
    header.cw_index = h.cw_index;
    header.tier = h.tier;
    header.splice_command_length = h.command_length;
    header.splice_command_type = SpliceCommandType::from_id(h.command_type);
    header
}

fn time(t: Time) -> SpliceTime {
    match t {
        Time::Immediate => SpliceTime::Immediate,
        Time::Unspecified => SpliceTime::Unspecified,
        Time::At(ticks) => SpliceTime::At(ticks),
    }
}

fn insert(x: &Insert) -> InsertDetail {
    InsertDetail {
        network_indicator: if x.out { NetworkIndicator::Out } else { NetworkIndicator::In },
        splice_mode: match &x.mode {
            SpliceMode::Program(t) => scte35::SpliceMode::Program(time(*t)),
            SpliceMode::Components(list) => {
                let component = |(tag, t): &(u8, Time)| InsertComponent { component_tag: *tag, splice_time: time(*t) };
                scte35::SpliceMode::Components(list.iter().map(component).collect())
            }
        },
        duration: x
            .duration
            .map(|(auto, duration)| SpliceDuration { return_mode: if auto { ReturnMode::Automatic } else { ReturnMode::Manual }, duration }),
        unique_program_id: x.program_id,
        avail_num: x.avail,
        avails_expected: x.expected,
    }
}

pub fn command(c: &Command) -> SpliceCommand<'_> {
    match c {
        Command::Refused(n) => unreachable!("a refused command ({n}) is not written"),
        Command::Null => SpliceCommand::SpliceNull,
        Command::Bandwidth => SpliceCommand::BandwidthReservation,
        Command::Private { identifier, bytes } => SpliceCommand::PrivateCommand { identifier: *identifier, private_bytes: bytes },
        Command::TimeSignal(t) => SpliceCommand::TimeSignal(time(*t)),
        Command::Insert { event, reserved, detail } => {
            SpliceCommand::SpliceInsert(SpliceInsert { splice_event_id: *event, reserved: *reserved, detail: detail.as_ref().map(insert) })
        }
    }
}

fn upid(u: &Upid) -> scte35::Upid<'_> {
    let bytes = &u.bytes[..];
    match (SegmentationUpidType::from_type(u.kind), std::str::from_utf8(bytes), bytes.try_into()) {
        (SegmentationUpidType::NotUsed, ..) if bytes.is_empty() => scte35::Upid::None,
        (upid_type @ SegmentationUpidType::MID, ..) => scte35::read_upid(upid_type, bytes).expect("drawn so that it is read"),
        (SegmentationUpidType::EIDR, _, Ok(bytes)) => scte35::Upid::Eidr(bytes),
        (upid_type @ (SegmentationUpidType::ISCIDeprecated | SegmentationUpidType::AdID | SegmentationUpidType::TID), Ok(text), _) => {
            scte35::Upid::Text { upid_type, text }
        }
        (upid_type, ..) => scte35::Upid::Bytes { upid_type, bytes },
    }
}

fn segmentation(s: &Segmentation) -> SegmentationDetail<'_> {
    SegmentationDetail {
        delivery_restrictions: s.restrictions.as_ref().map(|r| DeliveryRestrictions {
            web_delivery_allowed: r.web,
            no_regional_blackout: r.no_blackout,
            archive_allowed: r.archive,
            device_restrictions: DeviceRestrictions::ALL[r.device as usize],
        }),
        components: s
            .components
            .as_ref()
            .map(|list| list.iter().map(|(tag, offset)| SegmentationComponent { component_tag: *tag, pts_offset: *offset }).collect()),
        segmentation_duration: s.duration,
        segmentation_upid: upid(&s.upid),
        segmentation_type_id: SegmentationTypeId::from_id(s.type_id),
        segment_num: s.segment,
        segments_expected: s.expected,
        sub_segments: s.sub_segments.map(|(number, expected)| SubSegments { sub_segment_num: number, sub_segments_expected: expected }),
    }
}

pub fn item(x: &Item) -> SpliceDescriptor<'_> {
    match x {
        Item::Refused(r) => unreachable!("a refused item ({r:?}) is not written"),
        Item::Avail(id) => SpliceDescriptor::Avail { provider_avail_id: *id },
        Item::Dtmf { preroll, chars } => SpliceDescriptor::Dtmf { preroll: *preroll, dtmf_chars: chars },
        Item::Time { seconds, nanoseconds, offset } => {
            SpliceDescriptor::Time { tai_seconds: *seconds, tai_nanoseconds: *nanoseconds, utc_offset: *offset }
        }
        Item::Reserved { tag, identifier, bytes } => SpliceDescriptor::Reserved { tag: *tag, identifier: *identifier, private_bytes: bytes },
        Item::Segmentation { event, detail } => {
            SpliceDescriptor::Segmentation { segmentation_event_id: *event, detail: detail.as_ref().map(segmentation) }
        }
    }
}
