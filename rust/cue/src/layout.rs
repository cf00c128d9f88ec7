//! Which field of the standard each byte of an accepted section belongs to: what `cue map` shows, and how `cue check` names a byte.
//!
//! Nothing is read here. What is there, where the command, the items and the identifiers lie and how long they are is what the library answered; the
//! lengths of the fields between them are those of the standard's tables. A byte that no field claims is spare.
use crate::names::{self, named, time};
use crate::text::{plain, Quoted};
use scte35::{
    Identifier, IdentifierKind, InsertDetail, Item, Refusal, Section, SegmentationDetail, SegmentationUpidType, SpliceCommand, SpliceDescriptor,
    SpliceInsert, SpliceMode, SpliceTime,
};
use std::fmt::Display;

/// Where a section's command begins.
pub const COMMAND_AT: usize = 14;

/// What bytes are, beside their name.
#[derive(Debug, Clone, Copy, PartialEq, Eq)]
pub enum Kind {
    Field,
    /// one identifier, whole; numbered from 0 on
    Identifier(usize),
    /// tolerated, and in no reading
    Spare,
    /// of a refused item
    Refused,
}

/// A run of bytes, or (without bytes) the heading of those that follow.
#[derive(Debug)]
pub struct Row {
    pub at: usize,
    pub len: usize,
    /// how far in it stands
    pub depth: usize,
    pub kind: Kind,
    /// the field or the fields that share the bytes
    pub name: String,
    /// each with its value
    pub label: String,
}

/// The part of the bytes that begins at a place; what lies past the end is not there.
pub fn part(bytes: &[u8], at: usize, len: usize) -> &[u8] {
    let end = at.saturating_add(len).min(bytes.len());
    bytes.get(at..end).unwrap_or_default()
}

/// Is the insert's splice_immediate_flag set? One by no components reads the same with either.
pub fn is_immediate(mode: &SpliceMode) -> bool {
    match mode {
        SpliceMode::Program(t) => *t == SpliceTime::Immediate,
        SpliceMode::Components(list) => list.first().is_some_and(|c| c.splice_time == SpliceTime::Immediate),
    }
}

/// The standard's name of a descriptor's structure.
pub fn descriptor_name(x: &SpliceDescriptor<'_>) -> &'static str {
    match x {
        SpliceDescriptor::Avail { .. } => "avail_descriptor",
        SpliceDescriptor::Dtmf { .. } => "DTMF_descriptor",
        SpliceDescriptor::Segmentation { .. } => "segmentation_descriptor",
        SpliceDescriptor::Time { .. } => "time_descriptor",
        SpliceDescriptor::Reserved { .. } => "splice_descriptor",
    }
}

/// Where the UPID of a segmentation descriptor at a place begins: behind tag, length and identifier; event id, cancel bit and flags; components;
/// duration; the UPID's own type and length.
pub fn upid_place(x: &SegmentationDetail<'_>, place: usize) -> usize {
    let components = x.components.as_ref().map_or(0, |list| 1 + 6 * list.len());
    let duration = if x.segmentation_duration.is_some() { 5 } else { 0 };
    place + 6 + 6 + components + duration + 2
}

/// The text of an identifier that is text.
pub fn text_of<'a>(x: &Identifier<'a>) -> Option<&'a str> {
    let is_text = match x.upid_type {
        Some(t) => names::is_text(t.id()),
        None => x.kind == IdentifierKind::DtmfChars,
    };
    if is_text {
        plain(x.bytes)
    } else {
        None
    }
}

/// An identifier's type with its name, both types where they differ.
pub fn type_of(x: &Identifier<'_>) -> String {
    let Some(reported) = x.upid_type else {
        return match x.kind {
            IdentifierKind::DtmfChars => "DTMF_char".into(),
            _ => "private_byte".into(),
        };
    };
    let name = named(reported.id().into(), names::upid_type(reported.id()));
    match x.written_type() {
        Some(written) if written != reported => format!("{name}, written as {}", written.id()),
        _ => name,
    }
}

/// A section's bytes, each in exactly one row that has bytes, in order.
pub fn rows(bytes: &[u8], section: &Section<'_>) -> Vec<Row> {
    let mut walk = Walk { rows: vec![], at: 0, end: bytes.len(), depth: 0, identifiers: 0 };
    let header = &section.header;
    walk.heading("splice_info_section", bytes.len());
    walk.field(1, "table_id", "");
    walk.fields(2, &[("section_syntax_indicator", &""), ("private_indicator", &""), ("reserved", &""), ("section_length", &"")]);
    walk.field(1, "protocol_version", header.protocol_version);
    walk.fields(
        5,
        &[
            ("encrypted_packet", &u8::from(header.encrypted_packet)),
            ("encryption_algorithm", &header.encryption_algorithm.id()),
            ("pts_adjustment", &time(header.pts_adjustment)),
        ],
    );
    walk.field(1, "cw_index", header.cw_index);
    walk.fields(3, &[("tier", &header.tier), ("splice_command_length", &header.splice_command_length)]);
    let command = header.splice_command_type.id();
    walk.field(1, "splice_command_type", named(command.into(), names::command(command)));
    walk.heading(names::command(command), header.splice_command_length.into());
    walk.command(&section.command, COMMAND_AT + usize::from(header.splice_command_length));
    let descriptors = section.descriptors;
    walk.spare(descriptors.at().saturating_sub(2));
    walk.depth = 0;
    walk.field(2, "descriptor_loop_length", descriptors.bytes().len());
    for (n, item) in descriptors.iter().enumerate() {
        walk.item(n + 1, &item, descriptors.at());
    }
    walk.depth = 0;
    walk.spare(bytes.len().saturating_sub(4));
    walk.field(4, "CRC_32", "");
    walk.rows
}

struct Walk {
    rows: Vec<Row>,
    at: usize,
    /// of the section, or of the item: no row goes past it
    end: usize,
    depth: usize,
    identifiers: usize,
}

impl Walk {
    fn row(&mut self, len: usize, kind: Kind, name: String, label: String) {
        let len = len.min(self.end.saturating_sub(self.at));
        self.rows.push(Row { at: self.at, len, depth: self.depth, kind, name, label });
        self.at += len;
    }

    /// What follows stands below it.
    fn heading(&mut self, name: &str, len: usize) {
        self.depth = 0;
        self.row(0, Kind::Field, name.into(), format!("{name}, {}", names::bytes(len)));
        self.depth = 1;
    }

    fn field(&mut self, len: usize, name: &str, value: impl Display) {
        self.fields(len, &[(name, &value)]);
    }

    /// Fields that share bytes, each with its value; an empty one is not shown.
    fn fields(&mut self, len: usize, all: &[(&str, &dyn Display)]) {
        let name: Vec<&str> = all.iter().map(|(name, _)| *name).collect();
        let label: Vec<String> = all.iter().map(|(name, value)| format!("{name} {value}").trim_end().into()).collect();
        self.row(len, Kind::Field, name.join(", "), label.join(", "));
    }

    fn identifier(&mut self, len: usize, name: &str, text: &str) {
        if len > 0 {
            self.row(len, Kind::Identifier(self.identifiers), name.into(), format!("{name} {text}").trim_end().into());
            self.identifiers += 1;
        }
    }

    /// What is left up to a place.
    fn spare(&mut self, until: usize) {
        let len = until.saturating_sub(self.at);
        if len > 0 {
            self.row(len, Kind::Spare, "spare".into(), "spare".into());
        }
    }

    fn command(&mut self, command: &SpliceCommand<'_>, end: usize) {
        match command {
            SpliceCommand::SpliceInsert(x) => self.insert(x),
            SpliceCommand::TimeSignal(t) => self.time(*t),
            SpliceCommand::PrivateCommand { identifier, private_bytes } => {
                self.field(4, "identifier", format_args!("{identifier:#010X}"));
                self.identifier(private_bytes.len(), "private_byte", "");
            }
            _ => {}
        }
        self.spare(end);
    }

    fn time(&mut self, t: SpliceTime) {
        match t {
            SpliceTime::At(ticks) => self.fields(5, &[("time_specified_flag", &1), ("reserved", &""), ("pts_time", &time(ticks))]),
            SpliceTime::Unspecified => self.fields(1, &[("time_specified_flag", &0), ("reserved", &"")]),
            SpliceTime::Immediate => {}
        }
    }

    fn insert(&mut self, x: &SpliceInsert) {
        self.field(4, "splice_event_id", x.splice_event_id);
        self.fields(1, &[("splice_event_cancel_indicator", &u8::from(x.detail.is_none())), ("reserved", &x.reserved)]);
        if let Some(x) = &x.detail {
            self.insert_detail(x);
        }
    }

    fn insert_detail(&mut self, x: &InsertDetail) {
        let program = matches!(x.splice_mode, SpliceMode::Program(_));
        self.fields(
            1,
            &[
                ("out_of_network_indicator", &x.network_indicator.flag()),
                ("program_splice_flag", &u8::from(program)),
                ("duration_flag", &u8::from(x.duration.is_some())),
                ("splice_immediate_flag", &u8::from(is_immediate(&x.splice_mode))),
                ("reserved", &""),
            ],
        );
        match &x.splice_mode {
            SpliceMode::Program(t) => self.time(*t),
            SpliceMode::Components(list) => {
                self.field(1, "component_count", list.len());
                for c in list {
                    self.field(1, "component_tag", c.component_tag);
                    self.time(c.splice_time);
                }
            }
        }
        if let Some(d) = x.duration {
            self.fields(5, &[("auto_return", &d.return_mode.flag()), ("reserved", &""), ("duration", &time(d.duration))]);
        }
        self.field(2, "unique_program_id", x.unique_program_id);
        self.field(1, "avail_num", x.avail_num);
        self.field(1, "avails_expected", x.avails_expected);
    }

    fn item(&mut self, n: usize, item: &Item<'_>, base: usize) {
        let (place, section_end) = (base + item.offset, self.end);
        self.spare(place);
        self.end = (place + item.len).min(section_end);
        match &item.item {
            Err(refusal) => {
                self.heading(&format!("item {n}, refused"), item.len);
                self.refused(*refusal, base);
            }
            Ok(descriptor) => {
                self.heading(&format!("item {n}: {}", descriptor_name(descriptor)), item.len);
                self.descriptor(descriptor, item);
            }
        }
        self.spare(self.end);
        self.end = section_end;
    }

    /// The text of a refusal 24 is handed back, and so is one of the identifiers.
    fn refused(&mut self, refusal: Refusal, base: usize) {
        if let Refusal::InvalidUpidContent { at, len, .. } = refusal {
            let before = (base + at).saturating_sub(self.at);
            self.row(before, Kind::Refused, "refused".into(), refusal.to_string());
            self.identifier(len, "text that is not UTF-8", "");
            self.row(self.end - self.at, Kind::Refused, "refused".into(), "the rest of the item".into());
        } else {
            self.row(self.end - self.at, Kind::Refused, "refused".into(), refusal.to_string());
        }
    }

    fn descriptor(&mut self, x: &SpliceDescriptor<'_>, item: &Item<'_>) {
        let (tag, identifier) = match x {
            SpliceDescriptor::Avail { .. } => (0, *b"CUEI"),
            SpliceDescriptor::Dtmf { .. } => (1, *b"CUEI"),
            SpliceDescriptor::Segmentation { .. } => (2, *b"CUEI"),
            SpliceDescriptor::Time { .. } => (3, *b"CUEI"),
            SpliceDescriptor::Reserved { tag, identifier, .. } => (*tag, *identifier),
        };
        self.field(1, "splice_descriptor_tag", tag);
        self.field(1, "descriptor_length", item.len.saturating_sub(2));
        self.field(4, "identifier", plain(&identifier).map_or(String::new(), |text| Quoted(text).to_string()));
        match x {
            SpliceDescriptor::Avail { provider_avail_id } => self.field(4, "provider_avail_id", provider_avail_id),
            SpliceDescriptor::Dtmf { preroll, dtmf_chars } => {
                self.field(1, "preroll", preroll);
                self.fields(1, &[("dtmf_count", &dtmf_chars.len()), ("reserved", &"")]);
            }
            SpliceDescriptor::Segmentation { segmentation_event_id, detail } => {
                self.field(4, "segmentation_event_id", segmentation_event_id);
                self.fields(1, &[("segmentation_event_cancel_indicator", &u8::from(detail.is_none())), ("reserved", &"")]);
                if let Some(detail) = detail {
                    self.segmentation(detail, item);
                }
            }
            SpliceDescriptor::Time { tai_seconds, tai_nanoseconds, utc_offset } => {
                self.field(6, "TAI_seconds", tai_seconds);
                self.field(4, "TAI_ns", tai_nanoseconds);
                self.field(2, "UTC_offset", utc_offset);
            }
            SpliceDescriptor::Reserved { .. } => {}
        }
        if let (SpliceDescriptor::Dtmf { .. } | SpliceDescriptor::Reserved { .. }, Some(x)) = (x, item.identifiers().next()) {
            self.spare(x.at);
            self.identifier(x.len(), &type_of(&x), &quoted(&x));
        }
    }

    fn segmentation(&mut self, x: &SegmentationDetail<'_>, item: &Item<'_>) {
        self.flags(x);
        if let Some(list) = &x.components {
            self.field(1, "component_count", list.len());
            for c in list {
                self.fields(6, &[("component_tag", &c.component_tag), ("reserved", &""), ("pts_offset", &time(c.pts_offset))]);
            }
        }
        if let Some(ticks) = x.segmentation_duration {
            self.field(5, "segmentation_duration", time(ticks));
        }
        self.upid(item);
        let id = x.segmentation_type_id.id();
        self.field(1, "segmentation_type_id", named(id.into(), names::segmentation_type(id)));
        self.field(1, "segment_num", x.segment_num);
        self.field(1, "segments_expected", x.segments_expected);
        if let Some(sub) = x.sub_segments {
            self.field(1, "sub_segment_num", sub.sub_segment_num);
            self.field(1, "sub_segments_expected", sub.sub_segments_expected);
        }
    }

    fn flags(&mut self, x: &SegmentationDetail<'_>) {
        let (program, duration) = (u8::from(x.components.is_none()), u8::from(x.segmentation_duration.is_some()));
        let (first, second) = (("program_segmentation_flag", &program as &dyn Display), ("segmentation_duration_flag", &duration as &dyn Display));
        match x.delivery_restrictions {
            None => self.fields(1, &[first, second, ("delivery_not_restricted_flag", &1), ("reserved", &"")]),
            Some(r) => self.fields(
                1,
                &[
                    first,
                    second,
                    ("delivery_not_restricted_flag", &0),
                    ("web_delivery_allowed_flag", &u8::from(r.web_delivery_allowed)),
                    ("no_regional_blackout_flag", &u8::from(r.no_regional_blackout)),
                    ("archive_allowed_flag", &u8::from(r.archive_allowed)),
                    ("device_restrictions", &r.device_restrictions.bits()),
                ],
            ),
        }
    }

    /// Every identifier that is no MID as one row, at the place that the library gives it; type and length stand before each.
    fn upid(&mut self, item: &Item<'_>) {
        if item.identifiers().next().is_none() {
            self.field(1, "segmentation_upid_type", "");
            self.field(1, "segmentation_upid_length", 0);
        }
        let depth = self.depth;
        for x in item.identifiers() {
            self.depth = depth + x.level;
            self.spare(x.at.saturating_sub(2));
            self.field(1, "segmentation_upid_type", type_of(&x));
            self.field(1, if x.level == 0 { "segmentation_upid_length" } else { "length" }, x.len());
            if x.upid_type != Some(SegmentationUpidType::MID) {
                self.identifier(x.len(), "segmentation_upid", &quoted(&x));
            }
        }
        self.depth = depth;
    }
}

fn quoted(x: &Identifier<'_>) -> String {
    text_of(x).map_or(String::new(), |text| Quoted(text).to_string())
}
