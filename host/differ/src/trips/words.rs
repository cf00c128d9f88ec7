//! Values as the words that C hands to a writer. What the rules leave out is filled with anything: places of arrays past a count, the
//! header's command length and type, a step's refusal, values and next offset; so are the lent bytes before and behind those that a view names.
use crate::answer::*;
use crate::rng::Rng;
use scte35::raw;

/// The words of a command with those of its components, and of an item with those beside it.
#[derive(Debug, Clone)]
pub struct CommandWords {
    pub command: raw::Command,
    pub components: raw::InsertComponents,
    pub lent: Vec<u8>,
}

#[derive(Debug, Clone)]
pub struct ItemWords {
    pub step: raw::Step,
    pub beside: raw::SegmentationComponents,
    pub lent: Vec<u8>,
}

fn noise(rng: &mut Rng, words: &mut [u64]) {
    if rng.bit() {
        words.iter_mut().for_each(|w| *w = rng.next());
    }
}

/// Lent bytes with these somewhere in them, and where they stand.
fn lent(rng: &mut Rng, bytes: &[u8]) -> (Vec<u8>, raw::View) {
    let [before, behind] = [0; 2].map(|_| if rng.bit() { rng.below(20) } else { 0 });
    let all = [&rng.bytes(before)[..], bytes, &rng.bytes(behind)].concat();
    (all, raw::View { at: before as u64, len: bytes.len() as u64 })
}

pub fn time(t: Time) -> raw::Time {
    let (kind, ticks) = match t {
        Time::Immediate => (1, 0),
        Time::Unspecified => (2, 0),
        Time::At(ticks) => (3, ticks),
    };
    raw::Time { kind, ticks }
}

pub fn header(rng: &mut Rng, h: &Header) -> raw::Header {
    let mut out = raw::Header::ZERO;
    out.protocol_version = h.protocol_version.into();
    out.encrypted_packet = h.encrypted.into();
    out.encryption_algorithm = h.algorithm.into();
    out.pts_adjustment = h.pts_adjustment;
    out.cw_index = h.cw_index.into();
    out.tier = h.tier.into();
    noise(rng, &mut out.words_mut()[7..]);
    out
}

fn insert(rng: &mut Rng, x: &Insert, i: &mut raw::Insert, components: &mut raw::InsertComponents) {
    i.out_of_network_indicator = x.out.into();
    match &x.mode {
        SpliceMode::Program(t) => i.mode = raw::Mode { program_splice_flag: 1, splice_time: time(*t), component_count: 0 },
        SpliceMode::Components(list) => {
            i.mode.component_count = list.len() as u64;
            noise(rng, components.words_mut());
            for (place, (tag, t)) in components.components.iter_mut().zip(list) {
                *place = raw::InsertComponent { component_tag: (*tag).into(), splice_time: time(*t) };
            }
        }
    }
    if let Some((automatic, duration)) = x.duration {
        i.break_duration = raw::Break { duration_flag: 1, auto_return: automatic.into(), duration };
    }
    i.unique_program_id = x.program_id.into();
    i.avail_num = x.avail.into();
    i.avails_expected = x.expected.into();
}

pub fn command(rng: &mut Rng, c: &Command) -> CommandWords {
    let mut out = CommandWords { command: raw::Command::ZERO, components: raw::InsertComponents::ZERO, lent: vec![] };
    let words = &mut out.command;
    words.splice_command_type = super::build::command(c).0.into();
    match c {
        Command::Private { identifier, bytes } => {
            words.identifier = (*identifier).into();
            (out.lent, words.private_bytes) = lent(rng, bytes);
            return out;
        }
        Command::TimeSignal(t) => words.splice_time = time(*t),
        Command::Insert { event, reserved, detail } => {
            words.insert.splice_event_id = (*event).into();
            words.insert.reserved = (*reserved).into();
            words.insert.splice_event_cancel_indicator = detail.is_none().into();
            detail.iter().for_each(|x| insert(rng, x, &mut words.insert, &mut out.components));
        }
        _ => {}
    }
    out.lent = lent(rng, &[]).0;
    out
}

fn segmentation(rng: &mut Rng, x: &Segmentation, s: &mut raw::Segmentation, beside: &mut raw::SegmentationComponents) {
    [s.program_segmentation_flag, s.segmentation_duration_flag, s.delivery_not_restricted_flag] = x.flags.map(u64::from);
    if let Some(r) = &x.restrictions {
        s.delivery_restrictions = raw::Restrictions {
            web_delivery_allowed_flag: r.web.into(),
            no_regional_blackout_flag: r.no_blackout.into(),
            archive_allowed_flag: r.archive.into(),
            device_restrictions: r.device.into(),
        };
    }
    let list = x.components.as_deref().unwrap_or(&[]);
    s.component_count = list.len() as u64;
    // all but the EIDR
    noise(rng, &mut beside.words_mut()[..515]);
    for (place, (tag, offset)) in beside.components.iter_mut().zip(list) {
        *place = raw::SegmentationComponent { component_tag: (*tag).into(), pts_offset: *offset };
    }
    s.segmentation_duration = x.duration.unwrap_or(0);
    s.segmentation_upid_type = x.upid.kind.into();
    s.segmentation_type_id = x.type_id.into();
    s.segment_num = x.segment.into();
    s.segments_expected = x.expected.into();
    if let Some((number, expected)) = x.sub_segments {
        s.sub_segments = raw::SubSegments { present: 1, sub_segment_num: number.into(), sub_segments_expected: expected.into() };
    }
}

pub fn item(rng: &mut Rng, x: &Item) -> ItemWords {
    let mut out = ItemWords { step: raw::Step::ZERO, beside: raw::SegmentationComponents::ZERO, lent: vec![] };
    noise(rng, &mut out.step.words_mut()[..5]);
    let i = &mut out.step.item;
    let mut bytes: &[u8] = &[];
    match x {
        Item::Refused(r) => unreachable!("a refused item ({r:?}) is not written"),
        Item::Avail(id) => (i.kind, i.provider_avail_id) = (1, (*id).into()),
        Item::Dtmf { preroll, chars } => {
            (i.kind, i.preroll) = (2, (*preroll).into());
            bytes = chars;
        }
        Item::Segmentation { event, detail } => {
            i.kind = if detail.is_some() { 4 } else { 3 };
            i.segmentation.segmentation_event_id = (*event).into();
            i.segmentation.segmentation_event_cancel_indicator = detail.is_none().into();
            if let Some(s) = detail {
                segmentation(rng, s, &mut i.segmentation, &mut out.beside);
                match s.upid.kind {
                    10 => out.beside.eidr.iter_mut().zip(&s.upid.bytes).for_each(|(word, b)| *word = (*b).into()),
                    _ => bytes = &s.upid.bytes,
                }
            }
        }
        Item::Time { seconds, nanoseconds, offset } => {
            i.kind = 5;
            i.time = raw::TimeDescriptor { tai_seconds: *seconds, tai_nanoseconds: (*nanoseconds).into(), utc_offset: (*offset).into() };
        }
        Item::Reserved { tag, identifier, bytes: b } => {
            (i.kind, i.splice_descriptor_tag) = (6, (*tag).into());
            out.step.identifier = u32::from_be_bytes(*identifier).into();
            bytes = b;
        }
    }
    let (all, view) = lent(rng, bytes);
    out.lent = all;
    // only these kinds have a view
    if [2, 4, 6].contains(&i.kind) {
        i.bytes = view;
    }
    out
}
