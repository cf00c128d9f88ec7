//! Writing what the readers give. Each value is handed on as the words that reading it gives; its bytes are lent alone, so that its view is of all of
//! them.
use crate::command::{InsertDetail, SpliceCommand, SpliceInsert, SpliceMode};
use crate::header::{SpliceInfoHeader, SpliceTime};
use crate::items::{SegmentationComponent, SegmentationDetail, SpliceDescriptor, SpliceDescriptors};
use crate::names::{EncryptionAlgorithm, SegmentationTypeId};
use crate::raw;
use crate::refusal::Refusal;
use crate::upid::{read_upid, Upid};
use crate::{Section, MAX_DESCRIPTOR, MAX_LOOP, MAX_SECTION};

/// Writes a command's payload from the target's first byte on; says how many bytes that are.
pub fn write_command(command: &SpliceCommand<'_>, target: &mut [u8]) -> Result<usize, Refusal> {
    let (words, components, lent) = of_command(command);
    written(true, target, |target| raw::write_command_words(words.words(), &components, lent, target))
}

/// What `write_command` writes, as bytes of their own.
pub fn write_command_to_vec(command: &SpliceCommand<'_>) -> Result<Vec<u8>, Refusal> {
    to_vec(MAX_SECTION, |target| write_command(command, target))
}

/// Writes a whole descriptor from the target's first byte on; says how many bytes that are.
pub fn write_descriptor(descriptor: &SpliceDescriptor<'_>, target: &mut [u8]) -> Result<usize, Refusal> {
    let mut step = raw::Step::ZERO;
    let mut beside = raw::SegmentationComponents::ZERO;
    let lent = of_descriptor(descriptor, &mut step, &mut beside);
    written(is_read(descriptor), target, |target| raw::write_descriptor_words(step.words(), beside.words(), lent, target))
}

/// What `write_descriptor` writes, as bytes of their own.
pub fn write_descriptor_to_vec(descriptor: &SpliceDescriptor<'_>) -> Result<Vec<u8>, Refusal> {
    to_vec(MAX_DESCRIPTOR, |target| write_descriptor(descriptor, target))
}

/// Writes descriptors one behind the other, as a section's loop, from the target's first byte on; says how many bytes that are.
pub fn write_loop(descriptors: &[SpliceDescriptor<'_>], target: &mut [u8]) -> Result<usize, Refusal> {
    // a refusal leaves the target as it was, though descriptors before the refused one would fit
    let all = write_loop_to_vec(descriptors)?;
    target.get_mut(..all.len()).ok_or(Refusal::TargetTooShort)?.copy_from_slice(&all);
    Ok(all.len())
}

/// What `write_loop` writes, as bytes of their own. They may be more than a section's loop has room for.
pub fn write_loop_to_vec(descriptors: &[SpliceDescriptor<'_>]) -> Result<Vec<u8>, Refusal> {
    let mut all = vec![];
    for descriptor in descriptors {
        let mut one = [0; MAX_DESCRIPTOR];
        let length = write_descriptor(descriptor, &mut one)?;
        all.extend_from_slice(&one[..length]);
    }
    Ok(all)
}

/// Writes a whole section from the target's first byte on, around a loop of canonical descriptors; says how many bytes that are. The header's command
/// length and type are not looked at: they are worked out, as is all else that the section's other parts determine.
pub fn write_section(section: &Section<'_>, target: &mut [u8]) -> Result<usize, Refusal> {
    let header = of_header(&section.header);
    let (words, components, lent) = of_command(&section.command);
    let algorithm = section.header.encryption_algorithm;
    let read = algorithm == EncryptionAlgorithm::from_id(algorithm.id());
    written(read, target, |target| raw::write_section_words(header.words(), words.words(), &components, lent, section.descriptors.bytes(), target))
}

/// What `write_section` writes, as bytes of their own.
pub fn write_section_to_vec(section: &Section<'_>) -> Result<Vec<u8>, Refusal> {
    to_vec(MAX_SECTION, |target| write_section(section, target))
}

fn to_vec(room: usize, write: impl FnOnce(&mut [u8]) -> Result<usize, Refusal>) -> Result<Vec<u8>, Refusal> {
    let mut target = vec![0; room];
    let length = write(&mut target)?;
    target.truncate(length);
    Ok(target)
}

impl Section<'_> {
    /// Writes what was read: each item's descriptor, in order, as the loop, and the section around them. Of a canonical section that is the section
    /// itself, byte for byte; of any other, the canonical one that reads the same. A section with a refused item is not written
    /// (`Refusal::Unwritable`).
    pub fn write_back(&self, target: &mut [u8]) -> Result<usize, Refusal> {
        let items: Vec<_> = self.descriptors.iter().map(|x| x.item).collect::<Result<_, _>>().map_err(|_| Refusal::Unwritable)?;
        let mut descriptors = [0; MAX_LOOP];
        let length = write_loop(&items, &mut descriptors)?;
        write_section(&Section { descriptors: SpliceDescriptors::new(&descriptors[..length]), ..self.clone() }, target)
    }

    /// What `Section::write_back` writes, as bytes of their own.
    pub fn write_back_to_vec(&self) -> Result<Vec<u8>, Refusal> {
        to_vec(MAX_SECTION, |target| self.write_back(target))
    }
}

/// Is it a canonical section: accepted, every reserved bit 1, no spare byte, no refused item?
pub fn is_canonical_section(bytes: &[u8]) -> bool {
    raw::is_canonical_section(bytes, 0)
}

/// Is it a loop of canonical descriptors, or of none? It may have any length, though `read_item` refuses one over 4,076 bytes.
pub fn is_canonical_loop(bytes: &[u8]) -> bool {
    raw::is_canonical_loop(bytes, 0)
}

/// Is it one canonical descriptor?
pub fn is_canonical_descriptor(bytes: &[u8]) -> bool {
    raw::is_canonical_descriptor(bytes, 0)
}

/// The proved writer's answer. A value that no reader gives (`read` is false), though words can't tell, is refused as not canonical: behind what is
/// looked at before that, and the target is not handed on.
fn written(read: bool, target: &mut [u8], write: impl FnOnce(&mut [u8]) -> raw::Written) -> Result<usize, Refusal> {
    let answer = write(if read { target } else { &mut [] });
    match answer.refusal {
        n @ (31 | 32) => Err(Refusal::answered(n, [0; 3])),
        _ if !read => Err(Refusal::Unwritable),
        0 => Ok(answer.length as usize),
        n => Err(Refusal::answered(n, [0; 3])),
    }
}

fn of_header(h: &SpliceInfoHeader) -> raw::Header {
    raw::Header {
        refusal: 0,
        protocol_version: h.protocol_version.into(),
        encrypted_packet: h.encrypted_packet.into(),
        encryption_algorithm: h.encryption_algorithm.id().into(),
        pts_adjustment: h.pts_adjustment,
        cw_index: h.cw_index.into(),
        tier: h.tier.into(),
        splice_command_length: h.splice_command_length.into(),
        splice_command_type: h.splice_command_type.id().into(),
    }
}

fn of_time(t: SpliceTime) -> raw::Time {
    match t {
        SpliceTime::Immediate => raw::Time { kind: 1, ticks: 0 },
        SpliceTime::Unspecified => raw::Time { kind: 2, ticks: 0 },
        SpliceTime::At(ticks) => raw::Time { kind: 3, ticks },
    }
}

fn all_of(bytes: &[u8]) -> raw::View {
    raw::View { at: 0, len: bytes.len() as u64 }
}

// ---- commands

/// A command's words, those of its components, and its bytes.
fn of_command<'a>(command: &SpliceCommand<'a>) -> (raw::Command, Vec<u64>, &'a [u8]) {
    let mut c = raw::Command::ZERO;
    let (command_type, components, lent): (_, _, &[u8]) = match command {
        SpliceCommand::SpliceNull => (0, vec![], &[]),
        SpliceCommand::SpliceInsert(i) => (5, of_insert(i, &mut c.insert), &[]),
        SpliceCommand::TimeSignal(t) => {
            c.splice_time = of_time(*t);
            (6, vec![], &[])
        }
        SpliceCommand::BandwidthReservation => (7, vec![], &[]),
        SpliceCommand::PrivateCommand { identifier, private_bytes } => {
            c.identifier = (*identifier).into();
            c.private_bytes = all_of(private_bytes);
            (255, vec![], private_bytes)
        }
    };
    c.splice_command_type = command_type;
    (c, components, lent)
}

/// An insert's words; those of its components are handed back.
fn of_insert(insert: &SpliceInsert, i: &mut raw::Insert) -> Vec<u64> {
    i.splice_event_id = insert.splice_event_id.into();
    i.reserved = insert.reserved.into();
    match &insert.detail {
        None => {
            i.splice_event_cancel_indicator = 1;
            vec![]
        }
        Some(detail) => of_detail(detail, i),
    }
}

fn of_detail(detail: &InsertDetail, i: &mut raw::Insert) -> Vec<u64> {
    i.out_of_network_indicator = detail.network_indicator.flag().into();
    if let Some(d) = detail.duration {
        i.break_duration = raw::Break { duration_flag: 1, auto_return: d.return_mode.flag().into(), duration: d.duration };
    }
    i.unique_program_id = detail.unique_program_id.into();
    i.avail_num = detail.avail_num.into();
    i.avails_expected = detail.avails_expected.into();
    match &detail.splice_mode {
        SpliceMode::Program(t) => {
            i.mode = raw::Mode { program_splice_flag: 1, splice_time: of_time(*t), component_count: 0 };
            vec![]
        }
        SpliceMode::Components(list) => {
            i.mode.component_count = list.len() as u64;
            // refusal and count stand before the places, and are not looked at
            let mut words = vec![0; 2];
            for c in list {
                let time = of_time(c.splice_time);
                words.extend([u64::from(c.component_tag), time.kind, time.ticks]);
            }
            words
        }
    }
}

// ---- descriptors

/// A descriptor's words, and its bytes.
fn of_descriptor<'a>(descriptor: &'a SpliceDescriptor<'_>, step: &mut raw::Step, beside: &mut raw::SegmentationComponents) -> &'a [u8] {
    let i = &mut step.item;
    let (kind, lent): (_, &[u8]) = match descriptor {
        SpliceDescriptor::Avail { provider_avail_id } => {
            i.provider_avail_id = (*provider_avail_id).into();
            (1, &[])
        }
        SpliceDescriptor::Dtmf { preroll, dtmf_chars } => {
            i.preroll = (*preroll).into();
            (2, dtmf_chars)
        }
        SpliceDescriptor::Segmentation { segmentation_event_id, detail } => {
            i.segmentation.segmentation_event_id = (*segmentation_event_id).into();
            i.segmentation.segmentation_event_cancel_indicator = detail.is_none().into();
            detail.as_ref().map_or((3, &[]), |d| (4, of_segmentation(d, &mut i.segmentation, beside)))
        }
        SpliceDescriptor::Time { tai_seconds, tai_nanoseconds, utc_offset } => {
            i.time = raw::TimeDescriptor { tai_seconds: *tai_seconds, tai_nanoseconds: (*tai_nanoseconds).into(), utc_offset: (*utc_offset).into() };
            (5, &[])
        }
        SpliceDescriptor::Reserved { tag, identifier, private_bytes } => {
            step.identifier = u32::from_be_bytes(*identifier).into();
            i.splice_descriptor_tag = (*tag).into();
            (6, private_bytes)
        }
    };
    i.kind = kind;
    i.bytes = all_of(lent);
    lent
}

/// The words of a segmentation descriptor that is not cancelled, and the bytes of its UPID's view.
fn of_segmentation<'a>(detail: &'a SegmentationDetail<'_>, s: &mut raw::Segmentation, beside: &mut raw::SegmentationComponents) -> &'a [u8] {
    s.program_segmentation_flag = detail.components.is_none().into();
    s.segmentation_duration_flag = detail.segmentation_duration.is_some().into();
    s.delivery_not_restricted_flag = detail.delivery_restrictions.is_none().into();
    if let Some(r) = detail.delivery_restrictions {
        s.delivery_restrictions = raw::Restrictions {
            web_delivery_allowed_flag: r.web_delivery_allowed.into(),
            no_regional_blackout_flag: r.no_regional_blackout.into(),
            archive_allowed_flag: r.archive_allowed.into(),
            device_restrictions: r.device_restrictions.bits().into(),
        };
    }
    let components = detail.components.as_deref().unwrap_or(&[]);
    s.component_count = components.len() as u64;
    for (place, SegmentationComponent { component_tag, pts_offset }) in beside.components.iter_mut().zip(components) {
        *place = raw::SegmentationComponent { component_tag: (*component_tag).into(), pts_offset: *pts_offset };
    }
    s.segmentation_duration = detail.segmentation_duration.unwrap_or(0);
    s.segmentation_type_id = detail.segmentation_type_id.id().into();
    s.segment_num = detail.segment_num.into();
    s.segments_expected = detail.segments_expected.into();
    if let Some(x) = detail.sub_segments {
        let (sub_segment_num, sub_segments_expected) = (x.sub_segment_num.into(), x.sub_segments_expected.into());
        s.sub_segments = raw::SubSegments { present: 1, sub_segment_num, sub_segments_expected };
    }
    s.segmentation_upid_type = detail.segmentation_upid.upid_type().id().into();
    if let Upid::Eidr(bytes) = detail.segmentation_upid {
        beside.eidr = bytes.map(u64::from);
        return &[];
    }
    detail.segmentation_upid.bytes()
}

/// Does a reader give it, as far as its words don't tell? A number that has a name is not given as a reserved one, and a UPID's case is that of its
/// type.
fn is_read(descriptor: &SpliceDescriptor<'_>) -> bool {
    let SpliceDescriptor::Segmentation { detail: Some(detail), .. } = descriptor else { return true };
    let type_id = detail.segmentation_type_id;
    let upid = &detail.segmentation_upid;
    type_id == SegmentationTypeId::from_id(type_id.id()) && read_upid(upid.written_type(), upid.bytes()).as_ref() == Ok(upid)
}
