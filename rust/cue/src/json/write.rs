//! What was read, as JSON. Each structure is a map with the standard's names in the standard's order, written as it is walked through.
use crate::layout;
use crate::names;
use crate::text::{plain, Hex};
use scte35::{
    Identifier, InsertComponent, InsertDetail, Item, Refusal, Section, SegmentationComponent, SegmentationDetail, SegmentationUpidType,
    SpliceCommand, SpliceDescriptor, SpliceInsert, SpliceMode, SpliceTime,
};
use serde::ser::SerializeMap;
use serde::{Serialize, Serializer};

/// A cue that was accepted.
pub struct Accepted<'a> {
    pub cue: u64,
    pub bytes: &'a [u8],
    pub section: &'a Section<'a>,
}

impl Serialize for Accepted<'_> {
    fn serialize<S: Serializer>(&self, serializer: S) -> Result<S::Ok, S::Error> {
        let header = &self.section.header;
        let mut m = serializer.serialize_map(None)?;
        m.serialize_entry("cue", &self.cue)?;
        m.serialize_entry("length", &self.bytes.len())?;
        m.serialize_entry("protocol_version", &header.protocol_version)?;
        m.serialize_entry("encrypted_packet", &header.encrypted_packet)?;
        m.serialize_entry("encryption_algorithm", &header.encryption_algorithm.id())?;
        m.serialize_entry("pts_adjustment", &header.pts_adjustment)?;
        m.serialize_entry("cw_index", &header.cw_index)?;
        m.serialize_entry("tier", &header.tier)?;
        m.serialize_entry("splice_command_length", &header.splice_command_length)?;
        m.serialize_entry("splice_command_type", &header.splice_command_type.id())?;
        let name = names::command(header.splice_command_type.id());
        m.serialize_entry(name, &OfCommand(self.section))?;
        m.serialize_entry("descriptor_loop_length", &self.section.descriptors.bytes().len())?;
        m.serialize_entry("descriptors", &Descriptors(self.bytes, self.section))?;
        m.end()
    }
}

/// A cue that was refused.
pub struct Refused {
    pub cue: u64,
    pub length: usize,
    pub refusal: Refusal,
}

impl Serialize for Refused {
    fn serialize<S: Serializer>(&self, serializer: S) -> Result<S::Ok, S::Error> {
        let mut m = serializer.serialize_map(None)?;
        m.serialize_entry("cue", &self.cue)?;
        m.serialize_entry("length", &self.length)?;
        m.serialize_entry("refusal", &OfRefusal { refusal: self.refusal, bytes: &[], base: 0 })?;
        m.end()
    }
}

/// A refusal with its values; `base` is where what was lent begins in the section.
struct OfRefusal<'a> {
    refusal: Refusal,
    bytes: &'a [u8],
    base: usize,
}

impl Serialize for OfRefusal<'_> {
    fn serialize<S: Serializer>(&self, serializer: S) -> Result<S::Ok, S::Error> {
        let mut m = serializer.serialize_map(None)?;
        m.serialize_entry("number", &self.refusal.number())?;
        m.serialize_entry("name", self.refusal.name())?;
        m.serialize_entry("text", self.refusal.text())?;
        match self.refusal {
            Refusal::NotEnoughData { expected, actual, .. } => {
                m.serialize_entry("expected", &expected)?;
                m.serialize_entry("actual", &actual)?;
            }
            Refusal::InvalidUpidContent { upid_type, at, len, .. } => {
                m.serialize_entry("segmentation_upid_type", &upid_type.id())?;
                m.serialize_entry("place", &(self.base + at))?;
                m.serialize_entry("length", &len)?;
                m.serialize_entry("hex", &Hex(layout::part(self.bytes, self.base + at, len)))?;
            }
            Refusal::InvalidUpidLength { upid_type, expected, actual, .. } => {
                m.serialize_entry("segmentation_upid_type", &upid_type.id())?;
                m.serialize_entry("expected", &expected)?;
                m.serialize_entry("actual", &actual)?;
            }
            _ => {}
        }
        m.end()
    }
}

// ---- commands

struct OfCommand<'a>(&'a Section<'a>);

impl Serialize for OfCommand<'_> {
    fn serialize<S: Serializer>(&self, serializer: S) -> Result<S::Ok, S::Error> {
        let adjustment = self.0.header.pts_adjustment;
        let mut m = serializer.serialize_map(None)?;
        match &self.0.command {
            SpliceCommand::SpliceInsert(x) => insert(&mut m, x, adjustment)?,
            SpliceCommand::TimeSignal(t) => m.serialize_entry("splice_time", &OfTime(*t, adjustment))?,
            SpliceCommand::PrivateCommand { identifier, private_bytes } => {
                m.serialize_entry("identifier", &FormatIdentifier(identifier.to_be_bytes(), layout::COMMAND_AT))?;
                m.serialize_entry("private_byte", &Run { at: layout::COMMAND_AT + 4, bytes: private_bytes, text: None })?;
            }
            _ => {}
        }
        m.end()
    }
}

/// A splice_time, and the adjustment of its section.
struct OfTime(SpliceTime, u64);

impl Serialize for OfTime {
    fn serialize<S: Serializer>(&self, serializer: S) -> Result<S::Ok, S::Error> {
        let mut m = serializer.serialize_map(None)?;
        match self.0 {
            SpliceTime::At(ticks) => {
                m.serialize_entry("time_specified_flag", &true)?;
                m.serialize_entry("pts_time", &ticks)?;
                if let Ok(Some(adjusted)) = self.0.adjusted(self.1) {
                    m.serialize_entry("adjusted", &adjusted)?;
                }
            }
            _ => m.serialize_entry("time_specified_flag", &false)?,
        }
        m.end()
    }
}

fn insert<M: SerializeMap>(m: &mut M, x: &SpliceInsert, adjustment: u64) -> Result<(), M::Error> {
    m.serialize_entry("splice_event_id", &x.splice_event_id)?;
    m.serialize_entry("splice_event_cancel_indicator", &x.detail.is_none())?;
    m.serialize_entry("reserved", &x.reserved)?;
    x.detail.as_ref().map_or(Ok(()), |detail| insert_detail(m, detail, adjustment))
}

fn insert_detail<M: SerializeMap>(m: &mut M, x: &InsertDetail, adjustment: u64) -> Result<(), M::Error> {
    m.serialize_entry("out_of_network_indicator", &(x.network_indicator.flag() == 1))?;
    m.serialize_entry("program_splice_flag", &matches!(x.splice_mode, SpliceMode::Program(_)))?;
    m.serialize_entry("duration_flag", &x.duration.is_some())?;
    m.serialize_entry("splice_immediate_flag", &layout::is_immediate(&x.splice_mode))?;
    match &x.splice_mode {
        SpliceMode::Program(SpliceTime::Immediate) => {}
        SpliceMode::Program(t) => m.serialize_entry("splice_time", &OfTime(*t, adjustment))?,
        SpliceMode::Components(list) => m.serialize_entry("components", &SpliceComponents(list, adjustment))?,
    }
    if let Some(d) = x.duration {
        m.serialize_entry("break_duration", &Duration(d.return_mode.flag() == 1, d.duration))?;
    }
    m.serialize_entry("unique_program_id", &x.unique_program_id)?;
    m.serialize_entry("avail_num", &x.avail_num)?;
    m.serialize_entry("avails_expected", &x.avails_expected)
}

struct SpliceComponents<'a>(&'a [InsertComponent], u64);

impl Serialize for SpliceComponents<'_> {
    fn serialize<S: Serializer>(&self, serializer: S) -> Result<S::Ok, S::Error> {
        serializer.collect_seq(self.0.iter().map(|c| SpliceComponent(*c, self.1)))
    }
}

struct SpliceComponent(InsertComponent, u64);

impl Serialize for SpliceComponent {
    fn serialize<S: Serializer>(&self, serializer: S) -> Result<S::Ok, S::Error> {
        let mut m = serializer.serialize_map(None)?;
        m.serialize_entry("component_tag", &self.0.component_tag)?;
        if self.0.splice_time != SpliceTime::Immediate {
            m.serialize_entry("splice_time", &OfTime(self.0.splice_time, self.1))?;
        }
        m.end()
    }
}

struct Duration(bool, u64);

impl Serialize for Duration {
    fn serialize<S: Serializer>(&self, serializer: S) -> Result<S::Ok, S::Error> {
        let mut m = serializer.serialize_map(None)?;
        m.serialize_entry("auto_return", &self.0)?;
        m.serialize_entry("duration", &self.1)?;
        m.end()
    }
}

// ---- identifiers

/// Bytes with their place in the section.
struct Run<'a> {
    at: usize,
    bytes: &'a [u8],
    text: Option<&'a str>,
}

impl Run<'_> {
    fn entries<M: SerializeMap>(&self, m: &mut M) -> Result<(), M::Error> {
        m.serialize_entry("place", &self.at)?;
        m.serialize_entry("length", &self.bytes.len())?;
        m.serialize_entry("hex", &Hex(self.bytes))?;
        self.text.map_or(Ok(()), |text| m.serialize_entry("text", text))
    }
}

impl Serialize for Run<'_> {
    fn serialize<S: Serializer>(&self, serializer: S) -> Result<S::Ok, S::Error> {
        let mut m = serializer.serialize_map(None)?;
        self.entries(&mut m)?;
        m.end()
    }
}

/// The four bytes that say whose a descriptor or a command is, and their place.
struct FormatIdentifier([u8; 4], usize);

impl Serialize for FormatIdentifier {
    fn serialize<S: Serializer>(&self, serializer: S) -> Result<S::Ok, S::Error> {
        Run { at: self.1, bytes: &self.0, text: plain(&self.0) }.serialize(serializer)
    }
}

/// The UPID of a segmentation descriptor: its identifiers, of which the UPID is the first and the others its parts; of a UPID of no bytes its place,
/// and the type that stands before it.
struct OfUpid<'a> {
    item: &'a Item<'a>,
    place: usize,
    written_type: u8,
}

impl Serialize for OfUpid<'_> {
    fn serialize<S: Serializer>(&self, serializer: S) -> Result<S::Ok, S::Error> {
        let mut m = serializer.serialize_map(None)?;
        match self.item.identifiers().next() {
            None => {
                m.serialize_entry("segmentation_upid_type", &0)?;
                m.serialize_entry("type_as_written", &self.written_type)?;
                Run { at: self.place, bytes: &[], text: None }.entries(&mut m)?;
            }
            Some(upid) => {
                upid_entries(&mut m, &upid)?;
                if upid.upid_type == Some(SegmentationUpidType::MID) {
                    m.serialize_entry("parts", &Parts(self.item))?;
                }
            }
        }
        m.end()
    }
}

fn upid_entries<M: SerializeMap>(m: &mut M, x: &Identifier<'_>) -> Result<(), M::Error> {
    m.serialize_entry("segmentation_upid_type", &x.upid_type.map(|t| t.id()))?;
    m.serialize_entry("type_as_written", &x.written_type().map(|t| t.id()))?;
    Run { at: x.at, bytes: x.bytes, text: layout::text_of(x) }.entries(m)
}

struct Parts<'a>(&'a Item<'a>);

impl Serialize for Parts<'_> {
    fn serialize<S: Serializer>(&self, serializer: S) -> Result<S::Ok, S::Error> {
        serializer.collect_seq(self.0.identifiers().skip(1).map(Part))
    }
}

struct Part<'a>(Identifier<'a>);

impl Serialize for Part<'_> {
    fn serialize<S: Serializer>(&self, serializer: S) -> Result<S::Ok, S::Error> {
        let mut m = serializer.serialize_map(None)?;
        m.serialize_entry("level", &self.0.level)?;
        upid_entries(&mut m, &self.0)?;
        m.end()
    }
}

// ---- items

struct Descriptors<'a>(&'a [u8], &'a Section<'a>);

impl Serialize for Descriptors<'_> {
    fn serialize<S: Serializer>(&self, serializer: S) -> Result<S::Ok, S::Error> {
        let base = self.1.descriptors.at();
        serializer.collect_seq(self.1.descriptors.iter().map(|item| OfItem { item, section: self.0, base }))
    }
}

struct OfItem<'a> {
    item: Item<'a>,
    section: &'a [u8],
    base: usize,
}

impl Serialize for OfItem<'_> {
    fn serialize<S: Serializer>(&self, serializer: S) -> Result<S::Ok, S::Error> {
        let place = self.base + self.item.offset;
        let mut m = serializer.serialize_map(None)?;
        m.serialize_entry("offset", &self.item.offset)?;
        m.serialize_entry("place", &place)?;
        m.serialize_entry("length", &self.item.len)?;
        match &self.item.item {
            Err(refusal) => {
                m.serialize_entry("hex", &Hex(layout::part(self.section, place, self.item.len)))?;
                m.serialize_entry("refusal", &OfRefusal { refusal: *refusal, bytes: self.section, base: self.base })?;
            }
            Ok(descriptor) => m.serialize_entry(layout::descriptor_name(descriptor), &OfDescriptor(self, descriptor))?,
        }
        m.end()
    }
}

struct OfDescriptor<'a>(&'a OfItem<'a>, &'a SpliceDescriptor<'a>);

impl Serialize for OfDescriptor<'_> {
    fn serialize<S: Serializer>(&self, serializer: S) -> Result<S::Ok, S::Error> {
        let OfDescriptor(of, descriptor) = self;
        let run = || of.item.identifiers().next().map(|x| Run { at: x.at, bytes: x.bytes, text: layout::text_of(&x) });
        let mut m = serializer.serialize_map(None)?;
        match descriptor {
            SpliceDescriptor::Avail { provider_avail_id } => m.serialize_entry("provider_avail_id", provider_avail_id)?,
            SpliceDescriptor::Dtmf { preroll, .. } => {
                m.serialize_entry("preroll", preroll)?;
                m.serialize_entry("DTMF_char", &run())?;
            }
            SpliceDescriptor::Segmentation { segmentation_event_id, detail } => {
                m.serialize_entry("segmentation_event_id", segmentation_event_id)?;
                m.serialize_entry("segmentation_event_cancel_indicator", &detail.is_none())?;
                if let Some(detail) = detail {
                    segmentation(&mut m, detail, of)?;
                }
            }
            SpliceDescriptor::Time { tai_seconds, tai_nanoseconds, utc_offset } => {
                m.serialize_entry("TAI_seconds", tai_seconds)?;
                m.serialize_entry("TAI_ns", tai_nanoseconds)?;
                m.serialize_entry("UTC_offset", utc_offset)?;
            }
            SpliceDescriptor::Reserved { tag, identifier, .. } => {
                m.serialize_entry("splice_descriptor_tag", tag)?;
                m.serialize_entry("identifier", &FormatIdentifier(*identifier, of.base + of.item.offset + 2))?;
                m.serialize_entry("private_byte", &run())?;
            }
        }
        m.end()
    }
}

fn segmentation<M: SerializeMap>(m: &mut M, x: &SegmentationDetail<'_>, of: &OfItem<'_>) -> Result<(), M::Error> {
    m.serialize_entry("program_segmentation_flag", &x.components.is_none())?;
    m.serialize_entry("segmentation_duration_flag", &x.segmentation_duration.is_some())?;
    m.serialize_entry("delivery_not_restricted_flag", &x.delivery_restrictions.is_none())?;
    if let Some(r) = x.delivery_restrictions {
        m.serialize_entry("web_delivery_allowed_flag", &r.web_delivery_allowed)?;
        m.serialize_entry("no_regional_blackout_flag", &r.no_regional_blackout)?;
        m.serialize_entry("archive_allowed_flag", &r.archive_allowed)?;
        m.serialize_entry("device_restrictions", &r.device_restrictions.bits())?;
    }
    if let Some(list) = &x.components {
        m.serialize_entry("components", &ModeComponents(list))?;
    }
    if let Some(ticks) = x.segmentation_duration {
        m.serialize_entry("segmentation_duration", &ticks)?;
    }
    let at = layout::upid_place(x, of.base + of.item.offset);
    let written = layout::part(of.section, at - 2, 1).first().copied().unwrap_or(0);
    m.serialize_entry("segmentation_upid", &OfUpid { item: &of.item, place: at, written_type: written })?;
    m.serialize_entry("segmentation_type_id", &x.segmentation_type_id.id())?;
    m.serialize_entry("segment_num", &x.segment_num)?;
    m.serialize_entry("segments_expected", &x.segments_expected)?;
    if let Some(sub) = x.sub_segments {
        m.serialize_entry("sub_segment_num", &sub.sub_segment_num)?;
        m.serialize_entry("sub_segments_expected", &sub.sub_segments_expected)?;
    }
    Ok(())
}

struct ModeComponents<'a>(&'a [SegmentationComponent]);

impl Serialize for ModeComponents<'_> {
    fn serialize<S: Serializer>(&self, serializer: S) -> Result<S::Ok, S::Error> {
        serializer.collect_seq(self.0.iter().map(OfModeComponent))
    }
}

struct OfModeComponent<'a>(&'a SegmentationComponent);

impl Serialize for OfModeComponent<'_> {
    fn serialize<S: Serializer>(&self, serializer: S) -> Result<S::Ok, S::Error> {
        let mut m = serializer.serialize_map(None)?;
        m.serialize_entry("component_tag", &self.0.component_tag)?;
        m.serialize_entry("pts_offset", &self.0.pts_offset)?;
        m.end()
    }
}
