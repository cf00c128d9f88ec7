//! The port's answers, through its Rust interface, as `answer`'s.
use crate::answer::*;
use scte35::{SpliceDescriptor, SpliceDescriptors};

fn time(t: scte35::SpliceTime) -> Time {
    match t {
        scte35::SpliceTime::Immediate => Time::Immediate,
        scte35::SpliceTime::Unspecified => Time::Unspecified,
        scte35::SpliceTime::At(ticks) => Time::At(ticks),
    }
}

fn header_of(h: &scte35::SpliceInfoHeader) -> Header {
    Header {
        protocol_version: h.protocol_version,
        encrypted: h.encrypted_packet,
        algorithm: h.encryption_algorithm.id(),
        pts_adjustment: h.pts_adjustment,
        cw_index: h.cw_index,
        tier: h.tier,
        command_length: h.splice_command_length,
        command_type: h.splice_command_type.id(),
    }
}

fn command_of(c: scte35::SpliceCommand<'_>) -> Command {
    match c {
        scte35::SpliceCommand::SpliceNull => Command::Null,
        scte35::SpliceCommand::BandwidthReservation => Command::Bandwidth,
        scte35::SpliceCommand::TimeSignal(t) => Command::TimeSignal(time(t)),
        scte35::SpliceCommand::PrivateCommand { identifier, private_bytes } => Command::Private { identifier, bytes: private_bytes.to_vec() },
        scte35::SpliceCommand::SpliceInsert(i) => Command::Insert { event: i.splice_event_id, reserved: i.reserved, detail: i.detail.map(insert) },
        other => unreachable!("a command that the comparison does not know: {other:?}"),
    }
}

fn insert(x: scte35::InsertDetail) -> Insert {
    Insert {
        out: x.network_indicator == scte35::NetworkIndicator::Out,
        mode: match x.splice_mode {
            scte35::SpliceMode::Program(t) => SpliceMode::Program(time(t)),
            scte35::SpliceMode::Components(list) => SpliceMode::Components(list.iter().map(|c| (c.component_tag, time(c.splice_time))).collect()),
        },
        duration: x.duration.map(|d| (d.return_mode == scte35::ReturnMode::Automatic, d.duration)),
        program_id: x.unique_program_id,
        avail: x.avail_num,
        expected: x.avails_expected,
    }
}

/// A refusal of what was read from `lent`.
fn refusal(r: scte35::Refusal, lent: &[u8]) -> Refusal {
    match r {
        scte35::Refusal::InputTooLong => Refusal::TooLong,
        scte35::Refusal::NotEnoughData { expected, actual, .. } => Refusal::NotEnoughData { expected, actual },
        scte35::Refusal::InvalidDescriptorLength { .. } => Refusal::DescriptorLength,
        scte35::Refusal::UpidLengthTypeMismatch { .. } => Refusal::Untyped,
        scte35::Refusal::InvalidUpidContent { upid_type, at, len, .. } => {
            Refusal::NotText { kind: upid_type.id(), bytes: lent[at..][..len].to_vec() }
        }
        scte35::Refusal::InvalidUpidLength { upid_type, expected, actual, .. } => Refusal::WrongLength { kind: upid_type.id(), expected, actual },
        other => unreachable!("no item is refused by {other}"),
    }
}

fn upid_of(u: scte35::Upid<'_>) -> Upid {
    let parts = u.parts().iter().map(|p| Part { kind: p.upid_type.id(), level: p.level, start: p.start, length: p.bytes.len() }).collect();
    Upid { kind: u.upid_type().id(), length: u.bytes().len(), bytes: u.bytes().to_vec(), parts }
}

fn item(x: scte35::Item<'_>, lent: &[u8]) -> Item {
    match x.item {
        Err(r) => Item::Refused(refusal(r, lent)),
        Ok(SpliceDescriptor::Avail { provider_avail_id }) => Item::Avail(provider_avail_id),
        Ok(SpliceDescriptor::Dtmf { preroll, dtmf_chars }) => Item::Dtmf { preroll, chars: dtmf_chars.to_vec() },
        Ok(SpliceDescriptor::Time { tai_seconds, tai_nanoseconds, utc_offset }) => {
            Item::Time { seconds: tai_seconds, nanoseconds: tai_nanoseconds, offset: utc_offset }
        }
        Ok(SpliceDescriptor::Reserved { tag, identifier, private_bytes }) => Item::Reserved { tag, identifier, bytes: private_bytes.to_vec() },
        Ok(SpliceDescriptor::Segmentation { segmentation_event_id, detail }) => {
            Item::Segmentation { event: segmentation_event_id, detail: detail.map(segmentation) }
        }
    }
}

fn segmentation(x: scte35::SegmentationDetail<'_>) -> Segmentation {
    Segmentation {
        flags: [x.components.is_none(), x.segmentation_duration.is_some(), x.delivery_restrictions.is_none()],
        restrictions: x.delivery_restrictions.map(|r| Restrictions {
            web: r.web_delivery_allowed,
            no_blackout: r.no_regional_blackout,
            archive: r.archive_allowed,
            device: r.device_restrictions.bits(),
        }),
        components: x.components.map(|list| list.iter().map(|c| (c.component_tag, c.pts_offset)).collect()),
        duration: x.segmentation_duration,
        upid: upid_of(x.segmentation_upid),
        type_id: x.segmentation_type_id.id(),
        segment: x.segment_num,
        expected: x.segments_expected,
        sub_segments: x.sub_segments.map(|s| (s.sub_segment_num, s.sub_segments_expected)),
    }
}

/// A section, and its loop where it is accepted.
pub fn section(data: &[u8]) -> (Section, &[u8]) {
    match scte35::read_section(data) {
        Err(r) => (Section::Refused(r.number()), &[]),
        Ok(s) => {
            let lent = s.descriptors.bytes();
            (Section::Accepted { header: header_of(&s.header), command: command_of(s.command), items: items(lent) }, lent)
        }
    }
}

/// None: refusal 5.
pub fn header(data: &[u8]) -> Option<Header> {
    scte35::read_header(data).ok().map(|h| header_of(&h))
}

pub fn step(data: &[u8], offset: usize) -> Step {
    let t = scte35::read_item(SpliceDescriptors::new(data), offset);
    Step { item: t.item.map(|x| item(x, data)), next: t.next }
}

pub fn items(data: &[u8]) -> Vec<Item> {
    SpliceDescriptors::new(data).into_iter().map(|x| item(x, data)).collect()
}

pub fn upid(kind: u8, bytes: &[u8]) -> Result<Upid, Refusal> {
    scte35::read_upid(scte35::SegmentationUpidType::from_type(kind), bytes).map(upid_of).map_err(|r| refusal(r, bytes))
}

pub fn command(kind: u8, payload: &[u8]) -> Command {
    match scte35::read_command(scte35::SpliceCommandType::from_id(kind), payload) {
        Ok(c) => command_of(c),
        Err(r) => Command::Refused(r.number()),
    }
}
