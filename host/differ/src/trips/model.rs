//! What the rules say of words handed to a writer: the value that they are, or the refusal, 31 to 35. Written from the rules, with the
//! widths of the standard; it shares nothing with the writers under test.
use super::fields::{fit, COMMAND, COMPONENT, COMPONENT_SPLICE, HEADER, ITEM};
use super::words::{CommandWords, ItemWords};
use super::{build, draw};
use crate::answer::*;
use crate::bits::Bits;
use scte35::raw;

/// The value, or a refusal's number.
pub type Judged<T> = Result<T, u64>;

/// Refuses by this number unless it holds.
fn unless(number: u64, holds: bool) -> Judged<()> {
    holds.then_some(()).ok_or(number)
}

/// 31: "a view reaches outside the lent bytes", summed without wrapping.
fn inside(v: &raw::View, lent: &[u8]) -> bool {
    v.at.checked_add(v.len).is_some_and(|end| end <= lent.len() as u64)
}

fn zero(words: &[u64]) -> bool {
    words.iter().all(|w| *w == 0)
}

fn time(t: &raw::Time) -> Option<Time> {
    match (t.kind, t.ticks) {
        (1, 0) => Some(Time::Immediate),
        (2, 0) => Some(Time::Unspecified),
        (3, ticks) => Some(Time::At(ticks)),
        _ => None,
    }
}

// ---- headers

/// 32, "a number or count handed in exceeds its field", and 33 are told apart, since those of the command stand between them.
pub fn header(h: &raw::Header) -> (Judged<()>, Judged<Header>) {
    let fits = unless(32, fit(h.words(), &HEADER));
    let value = Header {
        protocol_version: h.protocol_version as u8,
        encrypted: h.encrypted_packet != 0,
        algorithm: h.encryption_algorithm as u8,
        pts_adjustment: h.pts_adjustment,
        cw_index: h.cw_index as u8,
        tier: h.tier as u16,
        command_length: 0,
        command_type: 0,
    };
    // "encrypted header"
    (fits, if h.refusal != 0 || value.encrypted { Err(33) } else { Ok(value) })
}

// ---- commands

/// The components that the words have: of an insert by components that is not cancelled.
fn splices<'a>(c: &raw::Command, list: &'a raw::InsertComponents) -> &'a [raw::InsertComponent] {
    let i = &c.insert;
    if c.splice_command_type != 5 || i.splice_event_cancel_indicator == 1 || i.mode.program_splice_flag == 1 {
        return &[];
    }
    &list.components[..(i.mode.component_count as usize).min(255)]
}

/// An insert, where its words are those of a reading: "insert reserved other than 127; mixed immediate and timed components"; what cancel bit and
/// mode leave out is blank.
fn insert(i: &raw::Insert, list: &[raw::InsertComponent]) -> Option<Command> {
    let event = i.splice_event_id as u32;
    if i.reserved != 127 {
        return None;
    }
    if i.splice_event_cancel_indicator == 1 {
        return zero(&i.words()[3..]).then_some(Command::Insert { event, reserved: 127, detail: None });
    }
    let mode = if i.mode.program_splice_flag == 1 {
        if i.mode.component_count != 0 {
            return None;
        }
        SpliceMode::Program(time(&i.mode.splice_time)?)
    } else {
        let list: Vec<(u8, Time)> = list.iter().map(|c| Some((c.component_tag as u8, time(&c.splice_time)?))).collect::<Option<_>>()?;
        let immediate = list.iter().filter(|(_, t)| *t == Time::Immediate).count();
        if !zero(i.mode.splice_time.words()) || ![0, list.len()].contains(&immediate) {
            return None;
        }
        SpliceMode::Components(list)
    };
    let b = &i.break_duration;
    if b.duration_flag == 0 && !zero(b.words()) {
        return None;
    }
    let detail = Insert {
        out: i.out_of_network_indicator == 1,
        mode,
        duration: (b.duration_flag == 1).then_some((b.auto_return == 1, b.duration)),
        program_id: i.unique_program_id as u16,
        avail: i.avail_num as u8,
        expected: i.avails_expected as u8,
    };
    Some(Command::Insert { event, reserved: 127, detail: Some(detail) })
}

/// The command, where its words are those of a reading: "a reserved command"; "an immediate time in a time signal"; what its type leaves out is
/// blank.
fn command_value(x: &CommandWords) -> Option<Command> {
    let c = &x.command;
    let [no_insert, no_time, no_private] = [&c.words()[2..16], &c.words()[16..18], &c.words()[18..]].map(zero);
    if c.refusal != 0 {
        return None;
    }
    match c.splice_command_type {
        0x00 if no_insert && no_time && no_private => Some(Command::Null),
        0x05 if no_time && no_private => insert(&c.insert, splices(c, &x.components)),
        0x06 if no_insert && no_private => time(&c.splice_time).filter(|t| *t != Time::Immediate).map(Command::TimeSignal),
        0x07 if no_insert && no_time && no_private => Some(Command::Bandwidth),
        0xFF if no_insert && no_time => {
            let bytes = x.lent[c.private_bytes.at as usize..][..c.private_bytes.len as usize].to_vec();
            Some(Command::Private { identifier: c.identifier as u32, bytes })
        }
        _ => None,
    }
}

/// 31 to 33.
pub fn command(x: &CommandWords) -> Judged<Command> {
    let c = &x.command;
    // of every view, whatever the type is: "31 before 33"
    unless(31, inside(&c.private_bytes, &x.lent))?;
    unless(32, fit(c.words(), &COMMAND) && splices(c, &x.components).iter().all(|s| fit(s.words(), &COMPONENT_SPLICE)))?;
    command_value(x).ok_or(33)
}

// ---- descriptors

/// "UPID bytes that its reader refuses": is the text UTF-8, the length that of the type, the MID made of whole parts?
fn taken(written: u8, bytes: &[u8]) -> bool {
    match written {
        0 => false,
        2 => bytes.len() == 8 && std::str::from_utf8(bytes).is_ok(),
        3 | 7 => bytes.len() == 12 && std::str::from_utf8(bytes).is_ok(),
        4 => bytes.len() == 32,
        5 | 8 => bytes.len() == 8,
        6 | 10 => bytes.len() == 12,
        13 => mid_taken(bytes),
        _ => true,
    }
}

fn mid_taken(mut bytes: &[u8]) -> bool {
    while let [kind, length, rest @ ..] = bytes {
        let length = *length as usize;
        if length > rest.len() || !taken(*kind, &rest[..length]) {
            return false;
        }
        bytes = &rest[length..];
    }
    bytes.is_empty()
}

/// A UPID of a reported type: "empty UPID other than None; UPID type 5; UPID bytes that its reader refuses (type 6 with 8 bytes goes by type 5's)".
fn upid(kind: u8, bytes: Vec<u8>, eidr: &[u64; 12]) -> Option<Upid> {
    let fair = match kind {
        10 => bytes.is_empty(),
        _ if !zero(eidr) => false,
        0 => bytes.is_empty(),
        5 => false,
        6 if bytes.len() == 8 => true,
        _ => !bytes.is_empty() && taken(kind, &bytes),
    };
    let bytes = if kind == 10 { eidr.map(|w| w as u8).to_vec() } else { bytes };
    fair.then(|| Upid { kind, length: bytes.len(), parts: if kind == 13 { draw::parts(&bytes, 0, 1) } else { vec![] }, bytes })
}

/// The components that the words have: of a segmentation by components.
fn places<'a>(i: &raw::Item, beside: &'a raw::SegmentationComponents) -> &'a [raw::SegmentationComponent] {
    let s = &i.segmentation;
    if i.kind != 4 || s.program_segmentation_flag == 1 {
        return &[];
    }
    &beside.components[..(s.component_count as usize).min(255)]
}

/// A segmentation, where its words are those of a reading: "a flag that contradicts its optional part".
fn segmentation(s: &raw::Segmentation, list: &[raw::SegmentationComponent], bytes: Vec<u8>, eidr: &[u64; 12]) -> Option<Segmentation> {
    let [program, lasts, free] = [s.program_segmentation_flag, s.segmentation_duration_flag, s.delivery_not_restricted_flag].map(|flag| flag == 1);
    let contradicted = program && s.component_count != 0
        || !lasts && s.segmentation_duration != 0
        || free && !zero(s.delivery_restrictions.words())
        || s.sub_segments.present == 0 && !zero(s.sub_segments.words());
    if contradicted || s.segmentation_event_cancel_indicator != 0 {
        return None;
    }
    let r = &s.delivery_restrictions;
    Some(Segmentation {
        flags: [program, lasts, free],
        restrictions: (!free).then_some(Restrictions {
            web: r.web_delivery_allowed_flag == 1,
            no_blackout: r.no_regional_blackout_flag == 1,
            archive: r.archive_allowed_flag == 1,
            device: r.device_restrictions as u8,
        }),
        components: (!program).then(|| list.iter().map(|c| (c.component_tag as u8, c.pts_offset)).collect()),
        duration: lasts.then_some(s.segmentation_duration),
        upid: upid(s.segmentation_upid_type as u8, bytes, eidr)?,
        type_id: s.segmentation_type_id as u8,
        segment: s.segment_num as u8,
        expected: s.segments_expected as u8,
        sub_segments: (s.sub_segments.present == 1).then_some((s.sub_segments.sub_segment_num as u8, s.sub_segments.sub_segments_expected as u8)),
    })
}

/// The item, where its words are those of a reading: what its kind leaves out is blank.
fn item_value(x: &ItemWords) -> Option<Item> {
    let (i, eidr) = (&x.step.item, &x.beside.eidr);
    let [avail, preroll] = [i.provider_avail_id, i.preroll].map(|w| w == 0);
    let [segment, times, view, no_eidr] = [i.segmentation.words(), i.time.words(), i.bytes.words(), eidr].map(zero);
    let [tag, identifier] = [i.splice_descriptor_tag, x.step.identifier].map(|w| w == 0);
    let bytes = || x.lent[i.bytes.at as usize..][..i.bytes.len as usize].to_vec();
    match i.kind {
        1 if preroll && segment && times && tag && view && identifier && no_eidr => Some(Item::Avail(i.provider_avail_id as u32)),
        2 if avail && segment && times && tag && identifier && no_eidr => Some(Item::Dtmf { preroll: i.preroll as u8, chars: bytes() }),
        3 if avail && preroll && times && tag && view && identifier && no_eidr => {
            let s = i.segmentation.words();
            (s[1] == 1 && zero(&s[2..])).then_some(Item::Segmentation { event: s[0] as u32, detail: None })
        }
        4 if avail && preroll && times && tag && identifier => {
            let detail = segmentation(&i.segmentation, places(i, &x.beside), bytes(), eidr)?;
            Some(Item::Segmentation { event: i.segmentation.segmentation_event_id as u32, detail: Some(detail) })
        }
        5 if avail && preroll && segment && tag && view && identifier && no_eidr => {
            let (nanoseconds, offset) = (i.time.tai_nanoseconds as u32, i.time.utc_offset as u16);
            Some(Item::Time { seconds: i.time.tai_seconds, nanoseconds, offset })
        }
        6 if avail && preroll && segment && times && no_eidr => {
            let (tag, identifier) = (i.splice_descriptor_tag as u8, (x.step.identifier as u32).to_be_bytes());
            // "reserved descriptor "CUEI" with tag 0 to 3"
            (identifier != *b"CUEI" || tag > 3).then(|| Item::Reserved { tag, identifier, bytes: bytes() })
        }
        _ => None,
    }
}

/// How many words beside an item are not to be left out: all where it has an EIDR, else those of the components that it counts.
pub fn beside_words(x: &ItemWords) -> usize {
    let i = &x.step.item;
    let count = places(i, &x.beside).len();
    if i.kind == 4 && i.segmentation.segmentation_upid_type == 10 {
        x.beside.words().len()
    } else if count > 0 {
        5 + 2 * count
    } else {
        0
    }
}

/// 31 to 34, and the descriptor.
pub fn descriptor(x: &ItemWords) -> Judged<(Item, Bits)> {
    let i = &x.step.item;
    unless(31, inside(&i.bytes, &x.lent))?;
    let most = match i.kind {
        2 => 7,
        4 => 255,
        _ => u64::MAX,
    };
    let fits =
        fit(&x.step.words()[5..], &ITEM) && x.beside.eidr.iter().all(|w| *w < 256) && places(i, &x.beside).iter().all(|c| fit(c.words(), &COMPONENT));
    unless(32, fits && i.bytes.len <= most)?;
    let value = item_value(x).ok_or(33u64)?;
    let bits = build::descriptor(&value).ok_or(34u64)?;
    Ok((value, bits))
}

// ---- sections

/// 31 to 35, and the section. Whether the loop is canonical is known of how it was made.
pub fn section(h: &raw::Header, c: &CommandWords, descriptors: &Bits, canonical: bool) -> Judged<(Header, Command, Bits)> {
    let ((fits, header), command) = (header(h), command(c));
    if command == Err(31) {
        return Err(31);
    }
    if command == Err(32) {
        return Err(32);
    }
    fits?;
    let (header, command) = (header?, command?);
    let bits = build::section(&header, &command, descriptors).ok_or(34u64)?;
    unless(35, canonical)?;
    Ok((header, command, bits))
}
