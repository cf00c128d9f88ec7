//! `cue show`: what a cue says, for people or as JSON.
use crate::console::{Console, REFUSED};
use crate::input::{self, Cue};
use crate::json::{Accepted, Refused};
use crate::layout::{self, descriptor_name, text_of, type_of};
use crate::names::{self, named, time};
use crate::text::{plain, Hex, Quoted};
use crate::verbs::make;
use clap::{Arg, ArgAction, ArgMatches, Command};
use scte35::{
    Identifier, InsertDetail, Item, Refusal, Section, SegmentationDetail, SpliceCommand, SpliceDescriptor, SpliceInsert, SpliceMode, SpliceTime,
};
use std::fmt::{self, Display, Write as _};
use std::io::{self, Write};

pub fn words(command: Command) -> Command {
    input::words(command)
        .about("Shows what each cue says: header, command, every item, every identifier")
        .arg(Arg::new("json").long("json").action(ArgAction::SetTrue).help("An object a cue, a line each (docs/cue.schema.json)"))
        .arg(make::to().help("The cue's bytes themselves, and nothing else").conflicts_with("json"))
        .after_help(
            "Examples:\n  \
             cue show /DAlAAAAAAAAAP/wFAUAAAABf+/+LRQrAP4BI9MIAAEBAQAAfxV6SQ==\n  \
             cue show --json FC302500000000000000FFF01405000000017FEFFE2D142B00FE0123D3080001010100007F157A49\n  \
             echo FC301100000000000000FFF0000000007A4FBFFF | cue show -",
        )
}

pub fn run(words: &ArgMatches, console: &mut Console) -> io::Result<()> {
    let json = words.get_flag("json");
    let to = make::to_of(words);
    let mut room = vec![];
    input::each(words, console, |console, cue| {
        match to {
            Some(to) => make::print(console, to, cue.bytes),
            None => one(console, &mut room, json, &cue),
        }
    })
}

/// A cue, for people or as a line of JSON.
pub fn one(console: &mut Console, room: &mut Vec<u8>, json: bool, cue: &Cue<'_>) -> io::Result<()> {
    if json {
        object(console, room, cue)?;
        return console.out.write_all(room);
    }
    let read = scte35::read_section(cue.bytes);
    match read {
        Ok(section) => text(console, cue, &section),
        Err(refusal) => {
            console.complain(REFUSED, cue.number, format_args!("refused: {refusal}"));
            Ok(())
        }
    }
}

/// The line of JSON of a cue without its opening brace, for one who has printed that and fields of its own.
pub fn one_after(console: &mut Console, room: &mut Vec<u8>, cue: &Cue<'_>) -> io::Result<()> {
    object(console, room, cue)?;
    console.out.write_all(&room[1..])
}

/// The line of JSON of a cue.
fn object(console: &mut Console, room: &mut Vec<u8>, cue: &Cue<'_>) -> io::Result<()> {
    match scte35::read_section(cue.bytes) {
        Ok(section) => line(room, &Accepted { cue: cue.number, bytes: cue.bytes, section: &section }),
        Err(refusal) => {
            console.complain(REFUSED, cue.number, format_args!("refused: {refusal}"));
            line(room, &Refused { cue: cue.number, length: cue.bytes.len(), refusal })
        }
    }
}

/// The line goes to memory that is used again, which takes small pieces faster than a buffered file.
fn line(room: &mut Vec<u8>, value: &impl serde::Serialize) -> io::Result<()> {
    room.clear();
    serde_json::to_writer(&mut *room, value)?;
    room.push(b'\n');
    Ok(())
}

fn text(console: &mut Console, cue: &Cue<'_>, section: &Section<'_>) -> io::Result<()> {
    let mut page = Page { text: String::new(), colour: console.colour };
    page.section(cue, section);
    console.out.write_all(page.text.as_bytes())
}

/// What is printed of a cue. A heading at the margin, fields below it.
struct Page {
    text: String,
    colour: bool,
}

impl Page {
    fn heading(&mut self, what: impl Display) {
        let (on, off) = if self.colour { ("\x1b[1m", "\x1b[0m") } else { ("", "") };
        let _ = writeln!(self.text, "{on}{what}{off}");
    }

    fn field(&mut self, name: &str, value: impl Display) {
        let _ = writeln!(self.text, "  {name} {value}");
    }

    fn section(&mut self, cue: &Cue<'_>, section: &Section<'_>) {
        let header = &section.header;
        self.heading(format_args!("cue {}: splice_info_section, {}", cue.number, names::bytes(cue.bytes.len())));
        self.field("protocol_version", header.protocol_version);
        self.field("encrypted_packet", u8::from(header.encrypted_packet));
        let algorithm = header.encryption_algorithm.id();
        self.field("encryption_algorithm", named(algorithm.into(), names::algorithm(algorithm)));
        self.field("pts_adjustment", time(header.pts_adjustment));
        self.field("cw_index", header.cw_index);
        self.field("tier", format_args!("{} ({:#05X})", header.tier, header.tier));
        let command = header.splice_command_type.id();
        self.field("splice_command_type", named(command.into(), names::command(command)));
        self.heading(format_args!("{}, {} at {}", names::command(command), names::bytes(header.splice_command_length.into()), layout::COMMAND_AT));
        self.command(section);
        let descriptors = section.descriptors;
        for (n, item) in descriptors.iter().enumerate() {
            self.item(n + 1, &item, descriptors.at(), cue.bytes);
        }
    }

    fn command(&mut self, section: &Section<'_>) {
        let adjustment = section.header.pts_adjustment;
        match &section.command {
            SpliceCommand::SpliceInsert(x) => self.insert(x, adjustment),
            SpliceCommand::TimeSignal(t) => self.field("splice_time", adjusted(*t, adjustment)),
            SpliceCommand::PrivateCommand { identifier, .. } => self.field("identifier", FormatIdentifier(identifier.to_be_bytes())),
            _ => {}
        }
        let private = matches!(section.command, SpliceCommand::PrivateCommand { .. });
        if let Some(x) = section.identifiers().next().filter(|_| private) {
            self.identifier("private_byte", &x);
        }
    }

    fn insert(&mut self, x: &SpliceInsert, adjustment: u64) {
        self.field("splice_event_id", event(x.splice_event_id));
        self.field("splice_event_cancel_indicator", u8::from(x.detail.is_none()));
        if x.reserved != 127 {
            self.field("reserved", format_args!("{} (canonical: 127)", x.reserved));
        }
        if let Some(detail) = &x.detail {
            self.insert_detail(detail, adjustment);
        }
    }

    fn insert_detail(&mut self, x: &InsertDetail, adjustment: u64) {
        let out = x.network_indicator.flag();
        self.field("out_of_network_indicator", named(out.into(), if out == 1 { "out of the network" } else { "back to the network" }));
        self.field("splice_immediate_flag", u8::from(layout::is_immediate(&x.splice_mode)));
        match &x.splice_mode {
            SpliceMode::Program(SpliceTime::Immediate) => self.field("program_splice_flag", 1),
            SpliceMode::Program(t) => {
                self.field("program_splice_flag", 1);
                self.field("splice_time", adjusted(*t, adjustment));
            }
            SpliceMode::Components(list) => {
                self.field("program_splice_flag", format_args!("0, {} components", list.len()));
                for c in list {
                    self.field("  component_tag", format_args!("{}: {}", c.component_tag, adjusted(c.splice_time, adjustment)));
                }
            }
        }
        if let Some(d) = x.duration {
            self.field("break_duration", time(d.duration));
            self.field("auto_return", d.return_mode.flag());
        }
        self.field("unique_program_id", x.unique_program_id);
        self.field("avail_num", x.avail_num);
        self.field("avails_expected", x.avails_expected);
    }

    fn item(&mut self, n: usize, item: &Item<'_>, base: usize, section: &[u8]) {
        let place = base + item.offset;
        match &item.item {
            Err(refusal) => {
                self.heading(format_args!("item {n}, {} at {place}: refused, {} {}", names::bytes(item.len), refusal.number(), refusal.name()));
                self.field("refused:", refusal);
                self.field("bytes", Hex(layout::part(section, place, item.len)));
                if let Refusal::InvalidUpidContent { at, len, .. } = refusal {
                    self.field("its text", format_args!("{} at {}: {}", names::bytes(*len), base + at, Hex(layout::part(section, base + at, *len))));
                }
            }
            Ok(descriptor) => {
                self.heading(format_args!("item {n}, {} at {place}: {}", names::bytes(item.len), descriptor_name(descriptor)));
                self.descriptor(descriptor, item);
            }
        }
    }

    fn descriptor(&mut self, x: &SpliceDescriptor<'_>, item: &Item<'_>) {
        match x {
            SpliceDescriptor::Avail { provider_avail_id } => self.field("provider_avail_id", event(*provider_avail_id)),
            SpliceDescriptor::Dtmf { preroll, .. } => {
                self.field("preroll", format_args!("{preroll} ({}.{} s)", preroll / 10, preroll % 10));
                self.identifiers("DTMF_char", item);
            }
            SpliceDescriptor::Segmentation { segmentation_event_id, detail } => {
                self.field("segmentation_event_id", event(*segmentation_event_id));
                self.field("segmentation_event_cancel_indicator", u8::from(detail.is_none()));
                if let Some(detail) = detail {
                    self.segmentation(detail, item);
                }
            }
            SpliceDescriptor::Time { tai_seconds, tai_nanoseconds, utc_offset } => {
                self.field("TAI_seconds", tai_seconds);
                self.field("TAI_ns", tai_nanoseconds);
                self.field("UTC_offset", utc_offset);
            }
            SpliceDescriptor::Reserved { tag, identifier, .. } => {
                self.field("splice_descriptor_tag", tag);
                self.field("identifier", FormatIdentifier(*identifier));
                self.identifiers("private_byte", item);
            }
        }
    }

    fn segmentation(&mut self, x: &SegmentationDetail<'_>, item: &Item<'_>) {
        match &x.components {
            None => self.field("program_segmentation_flag", 1),
            Some(list) => {
                self.field("program_segmentation_flag", format_args!("0, {} components", list.len()));
                for c in list {
                    self.field("  component_tag", format_args!("{}: pts_offset {}", c.component_tag, time(c.pts_offset)));
                }
            }
        }
        match x.delivery_restrictions {
            None => self.field("delivery_not_restricted_flag", 1),
            Some(r) => {
                self.field("delivery_not_restricted_flag", 0);
                self.field("web_delivery_allowed_flag", u8::from(r.web_delivery_allowed));
                self.field("no_regional_blackout_flag", u8::from(r.no_regional_blackout));
                self.field("archive_allowed_flag", u8::from(r.archive_allowed));
                let devices = r.device_restrictions.bits();
                self.field("device_restrictions", named(devices.into(), names::devices(devices)));
            }
        }
        if let Some(ticks) = x.segmentation_duration {
            self.field("segmentation_duration", time(ticks));
        }
        self.identifiers("segmentation_upid", item);
        let id = x.segmentation_type_id.id();
        self.field("segmentation_type_id", named(id.into(), names::segmentation_type(id)));
        self.field("segment_num", x.segment_num);
        self.field("segments_expected", x.segments_expected);
        if let Some(sub) = x.sub_segments {
            self.field("sub_segment_num", sub.sub_segment_num);
            self.field("sub_segments_expected", sub.sub_segments_expected);
        }
    }

    /// An item's identifiers: the first by its name in the item, a MID's parts as a tree below it.
    fn identifiers(&mut self, name: &str, item: &Item<'_>) {
        let all: Vec<_> = item.identifiers().collect();
        let Some((first, parts)) = all.split_first() else { return self.field(name, "none") };
        self.identifier(name, first);
        for (n, x) in parts.iter().enumerate() {
            self.identifier(&branch(parts, n), x);
        }
    }

    fn identifier(&mut self, name: &str, x: &Identifier<'_>) {
        let (on, off) = if self.colour { ("\x1b[36m", "\x1b[0m") } else { ("", "") };
        let type_ = x.upid_type.map_or(String::new(), |_| format!("type {}, ", type_of(x)));
        let text = text_of(x).map_or(String::new(), |text| format!(" {}", Quoted(text)));
        self.field(name, format_args!("{type_}{} at {}: {on}{}{text}{off}", names::bytes(x.len()), x.at, Hex(x.bytes)));
    }
}

/// The lines that lead to a part in the tree of its MID.
fn branch(parts: &[Identifier<'_>], n: usize) -> String {
    // does another part of that level, in the same MID, come after the n-th?
    let goes_on = |level: usize| parts[n + 1..].iter().find(|x| x.level <= level).is_some_and(|x| x.level == level);
    let level = parts[n].level;
    let lead: String = (1..level).map(|k| if goes_on(k) { "│  " } else { "   " }).collect();
    format!("{lead}{}", if goes_on(level) { "├─" } else { "└─" })
}

/// A time, and the time with the adjustment added.
fn adjusted(t: SpliceTime, adjustment: u64) -> String {
    match t {
        SpliceTime::Immediate => "immediate".into(),
        SpliceTime::Unspecified => "not specified".into(),
        SpliceTime::At(ticks) => match t.adjusted(adjustment) {
            Ok(Some(sum)) => format!("{}, adjusted {}", time(ticks), time(sum)),
            _ => time(ticks),
        },
    }
}

fn event(id: u32) -> String {
    format!("{id} ({id:#010X})")
}

/// Four bytes, and as text where they are.
struct FormatIdentifier([u8; 4]);

impl Display for FormatIdentifier {
    fn fmt(&self, f: &mut fmt::Formatter<'_>) -> fmt::Result {
        write!(f, "{}", Hex(&self.0))?;
        plain(&self.0).map_or(Ok(()), |text| write!(f, " {}", Quoted(text)))
    }
}

#[cfg(test)]
mod tests {
    use crate::verbs::tests::*;
    use serde_json::{json, Value};

    const FIRST: &str = "/DA0AAAAAAAA///wBQb+cr0AUAAeAhxDVUVJSAAAjn/PAAGlmbAICAAAAAAsoKGKNAIAmsnRfg==";

    /// The JSON of one cue.
    fn shown(cue: &str) -> Value {
        serde_json::from_str(&stdout(&["show", "--json", cue])).unwrap()
    }

    #[test]
    fn the_standards_first_sample() {
        let expected = "cue 1: splice_info_section, 55 bytes
  protocol_version 0
  encrypted_packet 0
  encryption_algorithm 0 (none)
  pts_adjustment 0 (0:00:00.000)
  cw_index 255
  tier 4095 (0xFFF)
  splice_command_type 6 (time_signal)
time_signal, 5 bytes at 14
  splice_time 1924989008 (5:56:28.766), adjusted 1924989008 (5:56:28.766)
item 1, 30 bytes at 21: segmentation_descriptor
  segmentation_event_id 1207959694 (0x4800008E)
  segmentation_event_cancel_indicator 0
  program_segmentation_flag 1
  delivery_not_restricted_flag 0
  web_delivery_allowed_flag 0
  no_regional_blackout_flag 1
  archive_allowed_flag 1
  device_restrictions 3 (none)
  segmentation_duration 27630000 (0:05:07.000)
  segmentation_upid type 8 (TI), 8 bytes at 40: 000000002CA0A18A
  segmentation_type_id 52 (Provider Placement Opportunity Start)
  segment_num 2
  segments_expected 0
";
        assert_eq!(stdout(&["show", FIRST]), expected);
    }

    #[test]
    fn a_mid_is_a_tree() {
        assert!(stdout(&["show", INCIDENT]).contains(
            "
  segmentation_upid type 13 (MID), 24 bytes at 35: 08081122334455667788030C414243443132333435363738
  ├─ type 8 (TI), 8 bytes at 37: 1122334455667788
  └─ type 3 (Ad-ID), 12 bytes at 47: 414243443132333435363738 \"ABCD12345678\"
"
        ));
        // a MID inside a MID, and a part behind it
        let page = stdout(&["show", &around(&with_upid("0D16 0D0A 0808 1122334455667788 0808 1122334455667788"))]);
        let tree: Vec<&str> = page.lines().filter(|line| line.contains("─ ")).collect();
        assert_eq!(
            tree,
            [
                "  ├─ type 13 (MID), 10 bytes at 33: 08081122334455667788",
                "  │  └─ type 8 (TI), 8 bytes at 35: 1122334455667788",
                "  └─ type 8 (TI), 8 bytes at 45: 1122334455667788"
            ]
        );
    }

    #[test]
    fn the_deepest_mid_of_a_loop() {
        // 119 heads, each of a MID around the rest: 238 bytes, and 16 more are the longest descriptor
        let heads: String = (0..119).map(|k| format!("0D{:02X}", 2 * (118 - k))).collect();
        let cue = around(&with_upid(&format!("0DEE{heads}")));
        let parts = &shown(&cue)["descriptors"][0]["segmentation_descriptor"]["segmentation_upid"]["parts"];
        assert_eq!(parts.as_array().map(Vec::len), Some(119));
        assert_eq!(parts[118]["level"], 119);
        assert_eq!(stdout(&["show", &cue]).lines().filter(|line| line.contains("─ ")).count(), 119);
    }

    #[test]
    fn times_are_adjusted() {
        // pts_adjustment 1, time 2
        let cue = with_crc("FC3016 00 0000000001 FF FFF005 06 FE00000002 0000");
        assert!(stdout(&["show", &cue]).contains("splice_time 2 (0:00:00.000), adjusted 3 (0:00:00.000)"));
        assert_eq!(shown(&cue)["time_signal"]["splice_time"], json!({ "time_specified_flag": true, "pts_time": 2, "adjusted": 3 }));
        // pts_adjustment 1, the last time of 33 bits: it wraps round
        let cue = with_crc("FC3016 00 0000000001 FF FFF005 06 FFFFFFFFFF 0000");
        assert!(stdout(&["show", &cue]).contains("splice_time 8589934591 (26:30:43.717), adjusted 0 (0:00:00.000)"));
        assert_eq!(shown(&cue)["time_signal"]["splice_time"], json!({ "time_specified_flag": true, "pts_time": 8_589_934_591u64, "adjusted": 0 }));
        // no time is specified
        let cue = with_crc("FC3012 00 0000000001 FF FFF001 06 7F 0000");
        assert!(!stdout(&["show", &cue]).contains("adjusted"));
        assert_eq!(shown(&cue)["time_signal"]["splice_time"], json!({ "time_specified_flag": false }));
    }

    #[test]
    fn every_command() {
        assert_eq!(shown(NULL)["splice_null"], json!({}));
        assert_eq!(shown(&of_command(7, ""))["bandwidth_reservation"], json!({}));
        let private = shown(&of_command(255, "43554549 AABB"));
        assert_eq!(private["private_command"]["private_byte"], json!({ "place": 18, "length": 2, "hex": "AABB" }));
        assert_eq!(private["private_command"]["identifier"]["text"], "CUEI");
        let text = stdout(&["show", &of_command(255, "43554549 AABB")]);
        assert!(text.contains("  identifier 43554549 \"CUEI\"\n  private_byte 2 bytes at 18: AABB\n"), "{text}");
        let cancelled = shown(&of_command(5, "00000001 FF"));
        assert_eq!(cancelled["splice_insert"]["splice_event_cancel_indicator"], true);
        let components = of_command(5, "00000001 7F AF 02 01 FE00000001 02 7F FE00000064 0001 00 00");
        assert_eq!(shown(&components)["splice_insert"]["components"][1], json!({ "component_tag": 2, "splice_time": { "time_specified_flag": false } }));
        let text = stdout(&["show", &components]);
        assert!(text.contains("  program_splice_flag 0, 2 components\n    component_tag 1: 1 (0:00:00.000)"), "{text}");
        let immediate = of_command(5, "00000001 7F DF 0001 00 00");
        assert_eq!(shown(&immediate)["splice_insert"]["splice_immediate_flag"], true);
        assert!(stdout(&["show", &of_command(5, "00000001 00 5F 0001 00 00")]).contains("reserved 0 (canonical: 127)"));
    }

    #[test]
    fn every_descriptor() {
        let of = |descriptor: &str| shown(&around(descriptor))["descriptors"][0].clone();
        assert_eq!(of("0008 43554549 00000135")["avail_descriptor"]["provider_avail_id"], 309);
        assert_eq!(of("0107 43554549 B13F34")["DTMF_descriptor"]["DTMF_char"], json!({ "place": 25, "length": 1, "hex": "34", "text": "4" }));
        assert_eq!(of("0209 43554549 00000001 FF")["segmentation_descriptor"]["segmentation_event_cancel_indicator"], true);
        assert_eq!(of("0310 43554549 000000000001 00000002 0003")["time_descriptor"], json!({ "TAI_seconds": 1, "TAI_ns": 2, "UTC_offset": 3 }));
        assert_eq!(of("0906 43554549 AABB")["splice_descriptor"]["private_byte"]["hex"], "AABB");
        assert_eq!(of("0904 41424344")["splice_descriptor"]["identifier"]["text"], "ABCD");
    }

    #[test]
    fn types_as_written() {
        let upid = |upid: &str| shown(&around(&with_upid(upid)))["descriptors"][0]["segmentation_descriptor"]["segmentation_upid"].clone();
        let isan = upid("0508 1122334455667788");
        assert_eq!((&isan["segmentation_upid_type"], &isan["type_as_written"]), (&json!(6), &json!(5)));
        assert_eq!(upid("0800"), json!({ "segmentation_upid_type": 0, "type_as_written": 8, "place": 31, "length": 0, "hex": "" }));
        let eidr = upid("0A0C 112233445566778899AABBCC");
        assert_eq!((&eidr["place"], &eidr["hex"]), (&json!(31), &json!("112233445566778899AABBCC")));
        assert_eq!(upid("0F04 75726E3A")["text"], "urn:");
        assert_eq!(upid("0F04 7572FF3A").get("text"), None);
    }

    #[test]
    fn every_refusal_of_a_section() {
        for (number, digits) in refused_sections() {
            let said = stderr(&["show", "--as", "hex", &digits], 1);
            assert!(said.starts_with("cue 1: refused: ") && said.ends_with(&format!("(refusal {number})\n")), "{said}");
            let output = cue(&["show", "--json", "--as", "hex", &digits]).output().unwrap();
            let line: Value = serde_json::from_slice(&output.stdout).unwrap();
            assert_eq!(line["refusal"]["number"], number);
            assert!(line["refusal"]["name"].is_string() && line["refusal"]["text"].is_string());
        }
    }

    #[test]
    fn every_refusal_of_an_item() {
        for (number, item, words) in refused_items() {
            // and the rest goes on, where the item does not end the loop
            let cue = around(&format!("{item}{}", if number == 22 { "" } else { "00084355454900000135" }));
            let text = stdout(&["show", &cue]);
            assert!(text.contains(&format!(": refused, {number} ")) && text.contains(words), "{text}");
            assert!(number == 22 || text.contains("provider_avail_id 309"), "{text}");
            let line = shown(&cue);
            assert_eq!(line["descriptors"][0]["refusal"]["number"], number);
            assert_eq!(line["descriptors"][0]["hex"], item.as_str());
        }
        let text = shown(&around(&with_upid("030C FF4243443132333435363738")));
        let refusal = &text["descriptors"][0]["refusal"];
        assert_eq!((&refusal["place"], &refusal["hex"]), (&json!(31), &json!("FF4243443132333435363738")));
    }

    #[test]
    fn text_is_harmless() {
        // an Ad-ID with a control character
        let cue = around(&with_upid("030C 1B5B324A3132333435363738"));
        assert!(!stdout(&["show", &cue]).contains('\x1b'));
        assert!(!stdout(&["identifiers", &cue]).contains('\x1b'));
        assert!(!stdout(&["map", &cue]).contains('\x1b'));
    }

    #[test]
    fn bytes_alone() {
        let base64 = stdout(&["show", "--to", "base64", FIRST]);
        assert_eq!(base64.trim_end(), FIRST);
        assert_eq!(stdout(&["show", "--to", "hex", FIRST]), stdout(&["show", "--to", "hex", &base64]));
        let raw = cue(&["show", "--to", "raw", NULL]).output().unwrap().stdout;
        assert_eq!(raw, hex::decode(NULL).unwrap());
        cue(&["show", "--to", "hex", "-"]).write_stdin(raw).assert().success().stdout(format!("{NULL}\n"));
    }

    #[test]
    fn colours() {
        assert!(!stdout(&["show", INCIDENT]).contains('\x1b'));
        assert!(stdout(&["--color", "always", "show", INCIDENT]).contains("\x1b[36m1122334455667788\x1b[0m"));
    }
}
