//! A section made of JSON as `write.rs` makes it. Every name is looked at: one that is missing, unknown or of another kind is an error that names it.
//! What the library works out or only reports (lengths, places, types, adjusted times, the parts of a MID) may be there or not.
use scte35::{
    DeliveryRestrictions, DeviceRestrictions, EncryptionAlgorithm, InsertComponent, InsertDetail, NetworkIndicator, Refusal, ReturnMode, Section,
    SegmentationComponent, SegmentationDetail, SegmentationTypeId, SegmentationUpidType, SpliceCommand, SpliceDescriptor, SpliceDescriptors,
    SpliceDuration, SpliceInfoHeader, SpliceInsert, SpliceMode, SpliceTime, SubSegments, Upid,
};
use serde_json::{Map, Value};
use std::fmt::{self, Display};

/// Why no section is made.
#[derive(Debug, PartialEq, Eq)]
pub enum Fault {
    /// a name and what is wrong with it
    Words(String),
    /// the library's refusal, and of what
    Refused(String, Refusal),
}

impl Display for Fault {
    fn fmt(&self, f: &mut fmt::Formatter<'_>) -> fmt::Result {
        match self {
            Fault::Words(words) => f.write_str(words),
            Fault::Refused(what, refusal) if what.is_empty() => write!(f, "not written: {refusal}"),
            Fault::Refused(what, refusal) => write!(f, "not written, {what}: {refusal}"),
        }
    }
}

type Made<T> = Result<T, Fault>;

/// The section's bytes, by the proved writers.
pub fn section(value: Value) -> Made<Vec<u8>> {
    let mut top = Object::new(String::new(), value)?;
    top.forget(&["cue", "packet", "daterange", "length", "splice_command_length", "splice_command_type", "descriptor_loop_length"]);
    if let Some(refusal) = top.map.remove("refusal") {
        return Err(refused_before("the cue", &refusal));
    }
    let mut header = SpliceInfoHeader::default();
    header.protocol_version = top.number("protocol_version")?;
    header.encrypted_packet = top.flag("encrypted_packet")?;
    header.encryption_algorithm = EncryptionAlgorithm::from_id(top.number("encryption_algorithm")?);
    header.pts_adjustment = top.number("pts_adjustment")?;
    header.cw_index = top.number("cw_index")?;
    header.tier = top.number("tier")?;
    let (name, mut inside) = top.one_of(&["splice_null", "splice_insert", "time_signal", "bandwidth_reservation", "private_command"])?;
    let list = top.list("descriptors")?;
    top.end()?;
    let private;
    let command = match name {
        "splice_null" => SpliceCommand::SpliceNull,
        "splice_insert" => SpliceCommand::SpliceInsert(insert(&mut inside)?),
        "time_signal" => SpliceCommand::TimeSignal(splice_time(&mut inside)?),
        "bandwidth_reservation" => SpliceCommand::BandwidthReservation,
        _ => {
            let identifier = u32::from_be_bytes(inside.four("identifier")?);
            private = inside.bytes("private_byte")?;
            SpliceCommand::PrivateCommand { identifier, private_bytes: &private }
        }
    };
    inside.end()?;
    let mut descriptors = vec![];
    let mut parts = vec![];
    for (n, value) in list.into_iter().enumerate() {
        let listed = descriptor(n, value, &mut descriptors)?;
        parts.extend(listed.map(|list| (n, list)));
    }
    let section = Section::new(header, command, SpliceDescriptors::new(&descriptors));
    let bytes = scte35::write_section_to_vec(&section).map_err(|r| Fault::Refused(String::new(), r))?;
    parts.into_iter().try_for_each(|(n, list)| parts_agree(n, list, &bytes))?;
    Ok(bytes)
}

/// What was refused when it was read can't be written.
fn refused_before(what: &str, refusal: &Value) -> Fault {
    let number = refusal.get("number").and_then(Value::as_u64).unwrap_or(0);
    Fault::Refused(format!("{what} was refused ({number}) when it was read"), Refusal::Unwritable)
}

// ---- commands

fn splice_time(inside: &mut Object) -> Made<SpliceTime> {
    let mut t = inside.object("splice_time")?;
    t.forget(&["adjusted"]);
    let time = match t.flag("time_specified_flag")? {
        true => SpliceTime::At(t.number("pts_time")?),
        false => SpliceTime::Unspecified,
    };
    t.end()?;
    Ok(time)
}

fn insert(x: &mut Object) -> Made<SpliceInsert> {
    let splice_event_id = x.number("splice_event_id")?;
    let cancelled = x.flag("splice_event_cancel_indicator")?;
    let reserved = x.number("reserved")?;
    let detail = if cancelled { None } else { Some(insert_detail(x)?) };
    Ok(SpliceInsert { splice_event_id, reserved, detail })
}

fn insert_detail(x: &mut Object) -> Made<InsertDetail> {
    let out = x.flag("out_of_network_indicator")?;
    let program = x.flag("program_splice_flag")?;
    let has_duration = x.flag("duration_flag")?;
    let immediate = x.flag("splice_immediate_flag")?;
    let splice_mode = match (program, immediate) {
        (true, true) => SpliceMode::Program(SpliceTime::Immediate),
        (true, false) => SpliceMode::Program(splice_time(x)?),
        (false, _) => SpliceMode::Components(splice_components(x, immediate)?),
    };
    let duration = if has_duration { Some(break_duration(x)?) } else { None };
    Ok(InsertDetail {
        network_indicator: if out { NetworkIndicator::Out } else { NetworkIndicator::In },
        splice_mode,
        duration,
        unique_program_id: x.number("unique_program_id")?,
        avail_num: x.number("avail_num")?,
        avails_expected: x.number("avails_expected")?,
    })
}

fn splice_components(x: &mut Object, immediate: bool) -> Made<Vec<InsertComponent>> {
    x.objects("components", |c| {
        let component_tag = c.number("component_tag")?;
        let splice_time = if immediate { SpliceTime::Immediate } else { splice_time(c)? };
        Ok(InsertComponent { component_tag, splice_time })
    })
}

fn break_duration(x: &mut Object) -> Made<SpliceDuration> {
    let mut d = x.object("break_duration")?;
    let return_mode = if d.flag("auto_return")? { ReturnMode::Automatic } else { ReturnMode::Manual };
    let duration = d.number("duration")?;
    d.end()?;
    Ok(SpliceDuration { return_mode, duration })
}

// ---- descriptors

/// Writes the item behind the others; the list of its MID's parts, where one is given.
fn descriptor(n: usize, value: Value, loop_: &mut Vec<u8>) -> Made<Option<Value>> {
    let mut item = Object::new(format!("descriptors[{n}]"), value)?;
    item.forget(&["offset", "place", "length", "hex"]);
    if let Some(refusal) = item.map.remove("refusal") {
        return Err(refused_before(&item.path, &refusal));
    }
    let (name, mut x) = item.one_of(&["avail_descriptor", "DTMF_descriptor", "segmentation_descriptor", "time_descriptor", "splice_descriptor"])?;
    item.end()?;
    let bytes;
    let mut parts = None;
    let descriptor = match name {
        "avail_descriptor" => SpliceDescriptor::Avail { provider_avail_id: x.number("provider_avail_id")? },
        "DTMF_descriptor" => {
            let preroll = x.number("preroll")?;
            bytes = x.bytes("DTMF_char")?;
            SpliceDescriptor::Dtmf { preroll, dtmf_chars: &bytes }
        }
        "segmentation_descriptor" => {
            let segmentation_event_id = x.number("segmentation_event_id")?;
            let detail = match x.flag("segmentation_event_cancel_indicator")? {
                true => None,
                false => {
                    let upid_type;
                    (upid_type, bytes, parts) = upid(&mut x)?;
                    let upid = upid_of(upid_type, &bytes, &x.path)?;
                    Some(segmentation(&mut x, upid)?)
                }
            };
            SpliceDescriptor::Segmentation { segmentation_event_id, detail }
        }
        "time_descriptor" => SpliceDescriptor::Time {
            tai_seconds: x.number("TAI_seconds")?,
            tai_nanoseconds: x.number("TAI_ns")?,
            utc_offset: x.number("UTC_offset")?,
        },
        _ => {
            let tag = x.number("splice_descriptor_tag")?;
            let identifier = x.four("identifier")?;
            bytes = x.bytes("private_byte")?;
            SpliceDescriptor::Reserved { tag, identifier, private_bytes: &bytes }
        }
    };
    x.end()?;
    let written = scte35::write_descriptor_to_vec(&descriptor).map_err(|r| Fault::Refused(item.path, r))?;
    loop_.extend_from_slice(&written);
    Ok(parts)
}

fn segmentation<'a>(x: &mut Object, segmentation_upid: Upid<'a>) -> Made<SegmentationDetail<'a>> {
    let program = x.flag("program_segmentation_flag")?;
    let has_duration = x.flag("segmentation_duration_flag")?;
    let not_restricted = x.flag("delivery_not_restricted_flag")?;
    let delivery_restrictions = if not_restricted { None } else { Some(restrictions(x)?) };
    let component = |c: &mut Object| Ok(SegmentationComponent { component_tag: c.number("component_tag")?, pts_offset: c.number("pts_offset")? });
    let components = if program { None } else { Some(x.objects("components", component)?) };
    let segmentation_duration = if has_duration { Some(x.number("segmentation_duration")?) } else { None };
    let segmentation_type_id = SegmentationTypeId::from_id(x.number("segmentation_type_id")?);
    let segment_num = x.number("segment_num")?;
    let segments_expected = x.number("segments_expected")?;
    // neither or both
    let sub_segments = match x.map.contains_key("sub_segment_num") || x.map.contains_key("sub_segments_expected") {
        true => Some(SubSegments { sub_segment_num: x.number("sub_segment_num")?, sub_segments_expected: x.number("sub_segments_expected")? }),
        false => None,
    };
    Ok(SegmentationDetail {
        delivery_restrictions,
        components,
        segmentation_duration,
        segmentation_upid,
        segmentation_type_id,
        segment_num,
        segments_expected,
        sub_segments,
    })
}

fn restrictions(x: &mut Object) -> Made<DeliveryRestrictions> {
    Ok(DeliveryRestrictions {
        web_delivery_allowed: x.flag("web_delivery_allowed_flag")?,
        no_regional_blackout: x.flag("no_regional_blackout_flag")?,
        archive_allowed: x.flag("archive_allowed_flag")?,
        device_restrictions: {
            let bits = x.number("device_restrictions")?;
            DeviceRestrictions::from_bits(bits).map_err(|r| Fault::Refused(x.name("device_restrictions"), r))?
        },
    })
}

/// The type and the bytes of the UPID, and the list of its parts, where one is given.
fn upid(x: &mut Object) -> Made<(u8, Vec<u8>, Option<Value>)> {
    let mut u = x.object("segmentation_upid")?;
    u.forget(&["type_as_written", "place", "length"]);
    let upid_type = u.number("segmentation_upid_type")?;
    let parts = u.map.remove("parts");
    let bytes = u.own_bytes()?;
    u.end()?;
    Ok((upid_type, bytes, parts))
}

/// The UPID of a type as reported, as the library reads these bytes.
fn upid_of<'a>(upid_type: u8, bytes: &'a [u8], path: &str) -> Made<Upid<'a>> {
    if bytes.is_empty() && upid_type == 0 {
        return Ok(Upid::None);
    }
    if bytes.len() > scte35::MAX_UPID {
        // for the writer to refuse
        return Ok(Upid::Bytes { upid_type: SegmentationUpidType::from_type(upid_type), bytes });
    }
    // both kinds of ISAN are reported as 6: the one that is written is the one of this length
    let as_read = |t: u8| scte35::read_upid(SegmentationUpidType::from_type(t), bytes);
    let read = match as_read(upid_type) {
        Err(_) if upid_type == 6 && bytes.len() == 8 => as_read(5),
        read => read,
    };
    match read {
        Ok(upid) if upid.upid_type().id() == upid_type => Ok(upid),
        // what the library reads as another type, or as none, it does not write as this one
        Ok(_) => Err(Fault::Refused(format!("{path}.segmentation_upid"), Refusal::Unwritable)),
        Err(refusal) => Err(Fault::Refused(format!("{path}.segmentation_upid"), refusal)),
    }
}

/// The parts that were given are those that the library finds in what was written: who changes one changes the MID's own bytes.
fn parts_agree(n: usize, given: Value, bytes: &[u8]) -> Made<()> {
    let path = format!("descriptors[{n}].segmentation_descriptor.segmentation_upid.parts");
    let section = scte35::read_section(bytes).map_err(|r| Fault::Refused(path.clone(), r))?;
    let item = section.descriptors.iter().nth(n);
    let mut found = item.iter().flat_map(|item| item.identifiers().skip(1));
    let Value::Array(list) = given else { return Err(Fault::Words(format!("{path}: not a list"))) };
    let differs = |k: usize| Fault::Words(format!("{path}[{k}]: not what the MID's own hex has there; change that, and leave parts out"));
    let count = list.len();
    for (k, value) in list.into_iter().enumerate() {
        let mut part = Object::new(format!("{path}[{k}]"), value)?;
        part.forget(&["type_as_written", "place", "length"]);
        let (level, upid_type): (u64, u8) = (part.number("level")?, part.number("segmentation_upid_type")?);
        let own = part.own_bytes()?;
        part.end()?;
        let same = |x: scte35::Identifier<'_>| x.level as u64 == level && x.upid_type.is_some_and(|t| t.id() == upid_type) && x.bytes == own;
        if !found.next().is_some_and(same) {
            return Err(differs(k));
        }
    }
    found.next().map_or(Ok(()), |_| Err(differs(count)))
}

// ---- objects

/// The names of an object that are not yet taken, and where it stands.
struct Object {
    path: String,
    map: Map<String, Value>,
}

impl Object {
    fn new(path: String, value: Value) -> Made<Self> {
        match value {
            Value::Object(map) => Ok(Object { path, map }),
            _ if path.is_empty() => Err(Fault::Words("not an object".into())),
            _ => Err(Fault::Words(format!("{path}: not an object"))),
        }
    }

    /// The whole name of one of its names.
    fn name(&self, name: &str) -> String {
        if self.path.is_empty() {
            name.into()
        } else {
            format!("{}.{name}", self.path)
        }
    }

    fn wrong<T>(&self, name: &str, what: &str) -> Made<T> {
        Err(Fault::Words(format!("{}: {what}", self.name(name))))
    }

    /// Names that are not looked at.
    fn forget(&mut self, names: &[&str]) {
        for name in names {
            self.map.remove(*name);
        }
    }

    fn take(&mut self, name: &str) -> Made<Value> {
        match self.map.remove(name) {
            Some(value) => Ok(value),
            None => self.wrong(name, "missing"),
        }
    }

    fn flag(&mut self, name: &str) -> Made<bool> {
        match self.take(name)? {
            Value::Bool(flag) => Ok(flag),
            _ => self.wrong(name, "neither true nor false"),
        }
    }

    /// A number that exceeds the type exceeds its field all the more.
    fn number<T: TryFrom<u64>>(&mut self, name: &str) -> Made<T> {
        match self.take(name)? {
            Value::Number(n) if n.is_u64() => {
                T::try_from(n.as_u64().unwrap_or(0)).map_err(|_| Fault::Refused(format!("{} {n}", self.name(name)), Refusal::TooLarge))
            }
            _ => self.wrong(name, "no whole number from 0 on"),
        }
    }

    fn object(&mut self, name: &str) -> Made<Object> {
        let value = self.take(name)?;
        Object::new(self.name(name), value)
    }

    fn list(&mut self, name: &str) -> Made<Vec<Value>> {
        match self.take(name)? {
            Value::Array(list) => Ok(list),
            _ => self.wrong(name, "not a list"),
        }
    }

    fn objects<T>(&mut self, name: &str, make: impl Fn(&mut Object) -> Made<T>) -> Made<Vec<T>> {
        let list = self.list(name)?;
        let one = |(n, value)| {
            let mut object = Object::new(format!("{}[{n}]", self.name(name)), value)?;
            let made = make(&mut object)?;
            object.end()?;
            Ok(made)
        };
        list.into_iter().enumerate().map(one).collect()
    }

    /// The one of these names that is there, and what it holds.
    fn one_of(&mut self, names: &[&'static str]) -> Made<(&'static str, Object)> {
        let mut there = names.iter().filter(|name| self.map.contains_key(**name));
        match (there.next(), there.next()) {
            (Some(name), None) => Ok((name, self.object(name)?)),
            (Some(one), Some(other)) => Err(Fault::Words(format!("{} beside {}: one of them is too many", self.name(one), self.name(other)))),
            (None, _) => {
                let place = if self.path.is_empty() { String::new() } else { format!("{}: ", self.path) };
                // a name that is none of them is more likely meant than left out
                self.end_but(&["descriptors"])?;
                Err(Fault::Words(format!("{place}missing: one of {}", names.join(", "))))
            }
        }
    }

    /// The bytes of the object with that name.
    fn bytes(&mut self, name: &str) -> Made<Vec<u8>> {
        let mut run = self.object(name)?;
        run.forget(&["place", "length"]);
        let bytes = run.own_bytes()?;
        run.end()?;
        Ok(bytes)
    }

    /// Its own bytes: `hex`, or `text`, or both where they agree.
    fn own_bytes(&mut self) -> Made<Vec<u8>> {
        let mut take = |name| match self.map.remove(name) {
            None => Ok(None),
            Some(Value::String(s)) => Ok(Some(s)),
            Some(_) => self.wrong(name, "not a string"),
        };
        let (digits, text) = (take("hex")?, take("text")?);
        let bytes = match digits.map(hex::decode).transpose() {
            Ok(bytes) => bytes,
            Err(why) => return self.wrong("hex", &format!("not hexadecimal: {why}")),
        };
        match (bytes, text) {
            (Some(bytes), Some(text)) if bytes != text.as_bytes() => self.wrong("text", "not the text of hex: change both, or leave one of them out"),
            (Some(bytes), _) => Ok(bytes),
            (None, Some(text)) => Ok(text.into_bytes()),
            (None, None) => self.wrong("hex", "missing"),
        }
    }

    fn four(&mut self, name: &str) -> Made<[u8; 4]> {
        let bytes = self.bytes(name)?;
        <[u8; 4]>::try_from(bytes).or_else(|_| self.wrong(name, "not four bytes"))
    }

    /// No name is left.
    fn end(&self) -> Made<()> {
        self.end_but(&[])
    }

    fn end_but(&self, names: &[&str]) -> Made<()> {
        match self.map.keys().find(|name| !names.contains(&name.as_str())) {
            Some(name) => self.wrong(name, "unknown here, or left out by a flag"),
            None => Ok(()),
        }
    }
}
