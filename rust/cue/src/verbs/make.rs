//! `cue make`: the section that JSON describes, written by the proved writers.
use crate::console::{Console, REFUSED, WRONG};
use crate::input;
use crate::json::{self, Fault};
use crate::text::Hex;
use clap::{Arg, ArgAction, ArgMatches, Command};
use serde_json::{Deserializer, Value};
use std::ffi::OsString;
use std::io::{self, BufRead, Read, Write};
use std::os::unix::ffi::OsStrExt;

/// How bytes are printed.
#[derive(Debug, Clone, Copy, PartialEq, Eq)]
pub enum To {
    Hex,
    Base64,
    Raw,
}

/// The word `--to`.
pub fn to() -> Arg {
    Arg::new("to").long("to").value_name("FORM").value_parser(["hex", "base64", "raw"])
}

/// What `--to` says.
pub fn to_of(words: &ArgMatches) -> Option<To> {
    words.get_one::<String>("to").map(|to| match to.as_str() {
        "hex" => To::Hex,
        "raw" => To::Raw,
        _ => To::Base64,
    })
}

/// Prints a cue's bytes: a line, or the bytes as they are.
pub fn print(console: &mut Console, to: To, bytes: &[u8]) -> io::Result<()> {
    match to {
        To::Hex => writeln!(console.out, "{}", Hex(bytes)),
        To::Base64 => writeln!(console.out, "{}", base64::encode(bytes)),
        To::Raw => console.out.write_all(bytes),
    }
}

pub fn words(command: Command) -> Command {
    command
        .about("Writes the cue that JSON describes, as `cue show --json` prints it")
        .arg(
            Arg::new("json")
                .value_name("JSON")
                .help("An object or several, @FILE, or - for standard input")
                .value_parser(clap::value_parser!(OsString))
                .action(ArgAction::Append)
                .default_value("-")
                .hide_default_value(true),
        )
        .arg(to().default_value("base64").help("How the cue is printed"))
        .after_help(
            "Lengths, the command's type and the CRC are worked out; lengths, places, adjusted times and\n\
             `type_as_written` may be left out. An identifier is taken from `hex`, or from `text` where `hex` is left\n\
             out. Raw cues follow one another without a mark between them.\n\n\
             Examples:\n  \
             cue show --json FC301100000000000000FFF0000000007A4FBFFF | cue make --to hex\n  \
             cue show --json FC301100000000000000FFF0000000007A4FBFFF | sed 's/4095/1/' | cue make | cue show -",
        )
}

pub fn run(words: &ArgMatches, console: &mut Console) -> io::Result<()> {
    let to = to_of(words).unwrap_or(To::Base64);
    let mut number = 0;
    for word in words.get_many::<OsString>("json").into_iter().flatten() {
        match input::source(word) {
            Err((name, why)) => console.say(WRONG, format_args!("{name}: {why}")),
            Ok(Some(source)) => all(source.reader, to, &mut number, console)?,
            Ok(None) => all(word.as_bytes(), to, &mut number, console)?,
        }
    }
    Ok(())
}

/// The most bytes of one object. The longest section's takes some 300 KB.
const MAX_OBJECT: usize = 1 << 22;

/// Every object of a text, as it comes: a line each, or over several lines. Behind a fault it goes on at the next line that begins with a brace.
fn all(mut reader: impl BufRead, to: To, number: &mut u64, console: &mut Console) -> io::Result<()> {
    let mut text = vec![];
    let mut faulty = false;
    loop {
        let before = text.len();
        match reader.by_ref().take(MAX_OBJECT as u64).read_until(b'\n', &mut text) {
            Ok(0) => break,
            Ok(_) => {}
            Err(why) => {
                console.say(WRONG, format_args!("cue: {why}"));
                break;
            }
        }
        let is_start = text[before..].starts_with(b"{");
        if faulty && !is_start {
            text.clear();
            continue;
        }
        let mut fault = objects(&mut text, to, number, console)?;
        if fault.is_some() && before > 0 && is_start {
            // the one before never ended
            complain(console, number, &fault.take());
            text.drain(..before.min(text.len()));
            fault = objects(&mut text, to, number, console)?;
        }
        faulty = fault.is_some();
        if faulty {
            complain(console, number, &fault);
            text.clear();
        }
    }
    if !text.trim_ascii().is_empty() {
        complain(console, number, &Some("ends too early".into()));
    }
    Ok(())
}

fn complain(console: &mut Console, number: &mut u64, fault: &Option<String>) {
    *number += 1;
    console.complain(WRONG, *number, format_args!("no JSON: {}", fault.as_deref().unwrap_or_default()));
}

/// Takes the objects that are whole from the text, and makes their cues. What is wrong with the next one; none where only its end is missing.
fn objects(text: &mut Vec<u8>, to: To, number: &mut u64, console: &mut Console) -> io::Result<Option<String>> {
    let mut values = Deserializer::from_slice(text).into_iter::<Value>();
    let mut used = 0;
    let mut fault = None;
    let mut made = vec![];
    for value in values.by_ref() {
        match value {
            Ok(Value::Array(list)) => made.extend(list),
            Ok(value) => made.push(value),
            Err(why) if why.is_eof() => break,
            Err(why) => {
                fault = Some(why.to_string());
                break;
            }
        }
    }
    used = used.max(values.byte_offset());
    if fault.is_none() {
        text.drain(..used.min(text.len()));
    }
    if text.len() > MAX_OBJECT {
        fault = Some(format!("an object of more than {MAX_OBJECT} bytes"));
    }
    made.into_iter().try_for_each(|value| one(value, to, number, console))?;
    Ok(fault)
}

fn one(value: Value, to: To, number: &mut u64, console: &mut Console) -> io::Result<()> {
    *number += 1;
    match json::section(value) {
        Ok(bytes) => print(console, to, &bytes),
        Err(fault) => {
            let status = if matches!(fault, Fault::Refused(..)) { REFUSED } else { WRONG };
            console.complain(status, *number, fault);
            Ok(())
        }
    }
}

#[cfg(test)]
mod tests {
    use crate::json::tests::{object, Random};
    use crate::verbs::tests::*;
    use serde_json::{json, Value};

    fn shown(cue: &str) -> Value {
        serde_json::from_str(&stdout(&["show", "--json", cue])).unwrap()
    }

    /// What is printed, said, and the status, for these words and this input.
    fn made(words: &[&str], input: &str) -> (String, String, i32) {
        let output = cue(words).write_stdin(input).output().unwrap();
        let text = |bytes| String::from_utf8(bytes).unwrap();
        (text(output.stdout), text(output.stderr), output.status.code().unwrap_or(-1))
    }

    #[test]
    fn what_was_shown_is_made_again() {
        for digits in [INCIDENT, NULL] {
            let line = stdout(&["show", "--json", digits]);
            assert_eq!(made(&["make", "--to", "hex"], &line), (format!("{digits}\n"), String::new(), 0));
            assert_eq!(stdout(&["make", "--to", "hex", &line]), format!("{digits}\n"));
            let (base64, _, _) = made(&["make"], &line);
            assert_eq!(stdout(&["show", "--json", base64.trim_end()]), line);
            let raw = cue(&["make", "--to", "raw"]).write_stdin(line).output().unwrap().stdout;
            assert_eq!(raw, hex::decode(digits).unwrap());
        }
    }

    #[test]
    fn one_or_many_on_a_line_or_several() {
        let (one, two) = (shown(INCIDENT), shown(NULL));
        let expected = format!("{INCIDENT}\n{NULL}\n");
        for text in [
            format!("{one}\n{two}\n"),
            format!("{one}{two}"),
            format!("{one:#}\n{two:#}"),
            format!("\n\n  {one:#}\n{two}\n\n"),
            format!("[{one},\n{two}]"),
        ] {
            assert_eq!(made(&["make", "--to", "hex", "-"], &text), (expected.clone(), String::new(), 0), "{text}");
        }
    }

    #[test]
    fn edited() {
        let mut cue = shown(INCIDENT);
        cue["tier"] = 1.into();
        cue["descriptors"][0]["segmentation_descriptor"]["segmentation_type_id"] = 17.into();
        let (digits, _, status) = made(&["make", "--to", "hex"], &cue.to_string());
        assert_eq!(status, 0);
        let again = shown(digits.trim_end());
        assert_eq!((&again["tier"], &again["descriptors"][0]["segmentation_descriptor"]["segmentation_type_id"]), (&json!(1), &json!(17)));
        // an identifier by its text alone
        let upid = json!({ "segmentation_upid_type": 3, "text": "ABCD12345679" });
        cue["descriptors"][0]["segmentation_descriptor"]["segmentation_upid"] = upid;
        let (digits, _, _) = made(&["make", "--to", "hex"], &cue.to_string());
        assert!(stdout(&["identifiers", digits.trim_end()]).ends_with("414243443132333435363739 \"ABCD12345679\"\n"));
    }

    /// Each name that is left out, and one too many, is named.
    #[test]
    fn names_are_named() {
        let cue = shown(INCIDENT);
        let fault = |cue: &Value| {
            let (_, said, status) = made(&["make"], &cue.to_string());
            assert_eq!(status, 2, "{said}");
            said
        };
        for name in ["protocol_version", "encrypted_packet", "encryption_algorithm", "pts_adjustment", "cw_index", "tier", "descriptors"] {
            let mut cue = cue.clone();
            cue.as_object_mut().unwrap().remove(name);
            assert_eq!(fault(&cue), format!("cue 1: {name}: missing\n"));
        }
        let of = "descriptors[0].segmentation_descriptor";
        let inside = cue["descriptors"][0]["segmentation_descriptor"].as_object().unwrap();
        for name in inside.keys() {
            let mut cue = cue.clone();
            cue["descriptors"][0]["segmentation_descriptor"].as_object_mut().unwrap().remove(name);
            assert_eq!(fault(&cue), format!("cue 1: {of}.{name}: missing\n"));
        }
        let mut more = cue.clone();
        more["descriptors"][0]["segmentation_descriptor"]["segment"] = 1.into();
        assert_eq!(fault(&more), format!("cue 1: {of}.segment: unknown here, or left out by a flag\n"));
        let mut more = cue.clone();
        more["Tier"] = 1.into();
        assert_eq!(fault(&more), "cue 1: Tier: unknown here, or left out by a flag\n");
        let mut two = cue.clone();
        two["splice_null"] = json!({});
        assert_eq!(fault(&two), "cue 1: splice_null beside time_signal: one of them is too many\n");
        let mut none = cue.clone();
        none.as_object_mut().unwrap().remove("time_signal");
        assert!(fault(&none).starts_with("cue 1: missing: one of splice_null, splice_insert, "));
        none["splice_schedule"] = json!({});
        assert_eq!(fault(&none), "cue 1: splice_schedule: unknown here, or left out by a flag\n");
    }

    #[test]
    fn values_are_of_their_kind() {
        let cue = shown(INCIDENT);
        let with = |path: &str, value: Value| {
            let mut cue = cue.clone();
            *cue.pointer_mut(path).unwrap() = value;
            let (_, said, status) = made(&["make"], &cue.to_string());
            (said, status)
        };
        let words = |text: &str| (format!("cue 1: {text}\n"), 2);
        assert_eq!(with("/tier", json!("1")), words("tier: no whole number from 0 on"));
        assert_eq!(with("/tier", json!(-1)), words("tier: no whole number from 0 on"));
        assert_eq!(with("/tier", json!(1.5)), words("tier: no whole number from 0 on"));
        assert_eq!(with("/encrypted_packet", json!(0)), words("encrypted_packet: neither true nor false"));
        assert_eq!(with("/descriptors", json!({})), words("descriptors: not a list"));
        assert_eq!(with("/descriptors/0", json!(1)), words("descriptors[0]: not an object"));
        let upid = "/descriptors/0/segmentation_descriptor/segmentation_upid";
        let name = "descriptors[0].segmentation_descriptor.segmentation_upid";
        assert_eq!(with(&format!("{upid}/hex"), json!("0")), words(&format!("{name}.hex: not hexadecimal: Odd number of digits")));
        assert_eq!(with(&format!("{upid}/hex"), json!(1)), words(&format!("{name}.hex: not a string")));
        // parts say what the MID's own bytes say
        let parts = format!("{name}.parts[1]: not what the MID's own hex has there; change that, and leave parts out");
        assert_eq!(with(&format!("{upid}/parts/1/hex"), json!("00")), words(&format!("{name}.parts[1].text: not the text of hex: change both, or leave one of them out")));
        assert_eq!(with(&format!("{upid}/parts/1"), json!({ "level": 1, "segmentation_upid_type": 3, "text": "ABCD12345679" })), words(&parts));
        assert_eq!(with(&format!("{upid}/parts"), json!([cue.pointer(&format!("{upid}/parts/0")).unwrap()])), words(&parts));
    }

    /// The library's refusals, in words with their number.
    #[test]
    fn refused() {
        let cue = shown(INCIDENT);
        let with = |path: &str, value: Value| {
            let mut cue = cue.clone();
            *cue.pointer_mut(path).unwrap() = value;
            let (printed, said, status) = made(&["make"], &cue.to_string());
            assert_eq!((printed.as_str(), status), ("", 1), "{said}");
            assert!(said.starts_with("cue 1: not written"), "{said}");
            let (_, number) = said.trim_end().rsplit_once("(refusal ").unwrap();
            number.trim_end_matches(')').parse::<u8>().unwrap()
        };
        let upid = "/descriptors/0/segmentation_descriptor/segmentation_upid";
        let of = |upid_type: u8, hex: &str| json!({ "segmentation_upid_type": upid_type, "hex": hex });
        assert_eq!(with("/tier", json!(4096)), 32);
        assert_eq!(with("/tier", json!(70000)), 32);
        assert_eq!(with("/cw_index", json!(256)), 32);
        assert_eq!(with("/pts_adjustment", json!(1u64 << 33)), 32);
        assert_eq!(with(upid, of(9, &"00".repeat(256))), 32);
        assert_eq!(with("/encrypted_packet", json!(true)), 33);
        assert_eq!(with(upid, of(5, "1122334455667788")), 33);
        assert_eq!(with(upid, of(9, "")), 33);
        assert_eq!(with(upid, of(9, &"00".repeat(240))), 34);
        assert_eq!(with(upid, of(8, "11")), 25);
        assert_eq!(with(upid, of(3, "FF4243443132333435363738")), 24);
        assert_eq!(with(upid, of(0, "11")), 23);
        assert_eq!(with(upid, of(13, "0803")), 21);
        let device = json!({ "segmentation_event_id": 1, "segmentation_event_cancel_indicator": false, "program_segmentation_flag": true,
            "segmentation_duration_flag": false, "delivery_not_restricted_flag": false, "web_delivery_allowed_flag": true, "no_regional_blackout_flag": true,
            "archive_allowed_flag": true, "device_restrictions": 4, "segmentation_upid": of(0, ""), "segmentation_type_id": 0, "segment_num": 0, "segments_expected": 0 });
        assert_eq!(with("/descriptors/0/segmentation_descriptor", device), 12);
        let many: Vec<Value> = (0..500).map(|n| json!({ "avail_descriptor": { "provider_avail_id": n } })).collect();
        assert_eq!(with("/descriptors", many.into()), 34);
        // what was refused when it was read
        let output = super::super::tests::cue(&["show", "--json", "FC30"]).output().unwrap();
        let (_, said, status) = made(&["make"], &String::from_utf8(output.stdout).unwrap());
        assert_eq!((said.as_str(), status), ("cue 1: not written, the cue was refused (1) when it was read: a value that no canonical reading has (refusal 33)\n", 1));
        let item = stdout(&["show", "--json", &around("000443554549")]);
        let (_, said, status) = made(&["make"], &item);
        assert!(said.starts_with("cue 1: not written, descriptors[0] was refused (21) when it was read") && status == 1, "{said}");
    }

    #[test]
    fn no_json() {
        let null = shown(NULL);
        // a line that is none is one cue, and those behind it are made
        let (printed, said, status) = made(&["make", "--to", "hex"], &format!("{null}\nhello\n{null}\n{{\"cue\":1,\n{null}\n{{"));
        assert_eq!(printed, format!("{NULL}\n{NULL}\n{NULL}\n"));
        let starts: Vec<_> = said.lines().map(|line| line.split(": ").take(2).collect::<Vec<_>>().join(": ")).collect();
        assert_eq!((starts, status), (vec!["cue 2: no JSON".to_string(), "cue 4: no JSON".into(), "cue 6: no JSON".into()], 2));
        for text in ["1", "null", "\"x\""] {
            assert_eq!(made(&["make"], text).1, "cue 1: not an object\n");
        }
        // deeper than is read
        assert_eq!(made(&["make"], &"[".repeat(100_000)).2, 2);
        assert_eq!(made(&["make"], &"{\"a\":".repeat(100_000)).2, 2);
        cue(&["make", "@/nowhere/at/all"]).assert().code(2);
    }

    /// 2,000 random sections, made of JSON, are shown and made again by the program itself: the same bytes, and the same JSON.
    #[test]
    fn there_and_back() {
        let mut random = Random(21);
        let lines: String = (0..2_000).map(|_| format!("{}\n", object(&mut random))).collect();
        let made = |words: &[&str], input: &str| {
            let output = cue(words).write_stdin(input).output().unwrap();
            assert_eq!((output.status.code(), String::from_utf8_lossy(&output.stderr).as_ref()), (Some(0), ""), "{words:?}");
            String::from_utf8(output.stdout).unwrap()
        };
        let digits = made(&["make", "--to", "hex"], &lines);
        let shown = made(&["show", "--json", "-"], &digits);
        assert_eq!(digits.lines().count(), 2_000);
        assert!(made(&["make", "--to", "hex"], &shown) == digits, "other bytes");
        let base64 = made(&["make"], &shown);
        assert!(made(&["show", "--json", "-"], &base64) == shown, "other JSON");
        let checked = made(&["check", "-"], &base64);
        assert_eq!(checked.lines().filter(|line| line.ends_with(": accepted; canonical; written back: the same bytes")).count(), 2_000);
    }
}
