//! A second reader and writer of EXT-X-DATERANGE lines, of RFC 8216, 4.2, and our rule alone. It cuts a list at the commas that stand outside quotes, and
//! looks at each piece as a whole: the proved one goes from byte to byte and never looks ahead.
use crate::answer::{Command, Section};
use crate::theirs;
use std::collections::HashSet;

const TAG: &[u8] = b"#EXT-X-DATERANGE:";
pub const NAMES: [&str; 3] = ["SCTE35-CMD", "SCTE35-OUT", "SCTE35-IN"];

#[derive(Debug, Clone, PartialEq, Eq)]
pub struct Said {
    pub id: Vec<u8>,
    pub date: Vec<u8>,
    pub name: &'static str,
    pub section: Vec<u8>,
}

/// The pieces between commas that stand outside quotes.
fn pieces(list: &[u8]) -> Vec<&[u8]> {
    let (mut out, mut from, mut inside) = (vec![], 0, false);
    for (i, b) in list.iter().enumerate() {
        match b {
            b'"' => inside = !inside,
            b',' if !inside => {
                out.push(&list[from..i]);
                from = i + 1;
            }
            _ => {}
        }
    }
    out.push(&list[from..]);
    out
}

fn is_name(name: &[u8]) -> bool {
    !name.is_empty() && name.iter().all(|b| b.is_ascii_uppercase() || b.is_ascii_digit() || *b == b'-')
}

/// What stands between the quotes.
fn quoted(value: &[u8]) -> Option<&[u8]> {
    let inner = value.strip_prefix(b"\"")?.strip_suffix(b"\"")?;
    (!inner.iter().any(|b| b"\"\r\n".contains(b))).then_some(inner)
}

fn is_plain(value: &[u8]) -> bool {
    !value.is_empty() && !value.iter().any(|b| b"\", \t\n\x0B\x0C\r".contains(b))
}

fn hexadecimal(value: &[u8]) -> Option<Vec<u8>> {
    let digits = value.strip_prefix(b"0x").or_else(|| value.strip_prefix(b"0X"))?;
    if digits.is_empty() || digits.len() % 2 != 0 || !digits.iter().all(|b| b"0123456789ABCDEF".contains(b)) {
        return None;
    }
    let text = std::str::from_utf8(digits).ok()?;
    (0..text.len() / 2).map(|i| u8::from_str_radix(&text[2 * i..2 * i + 2], 16).ok()).collect()
}

/// What a line says, or its refusal, where the target has so much room.
pub fn read(line: &[u8], room: usize) -> Result<Said, u64> {
    let list = line.strip_prefix(TAG).ok_or(52_u64)?;
    let (mut seen, mut id, mut date, mut cue) = (HashSet::new(), None, None, None);
    for piece in pieces(list) {
        let equals = piece.iter().position(|b| *b == b'=').ok_or(52_u64)?;
        let (name, value) = (&piece[..equals], &piece[equals + 1..]);
        let text = quoted(value);
        if !is_name(name) || !(text.is_some() || is_plain(value)) || !seen.insert(name) {
            return Err(52);
        }
        match name {
            b"ID" => id = Some(text.ok_or(52_u64)?),
            b"START-DATE" => date = Some(text.ok_or(52_u64)?),
            _ => {
                if let Some(known) = NAMES.into_iter().find(|n| n.as_bytes() == name) {
                    let section = hexadecimal(value).ok_or(52_u64)?;
                    cue.get_or_insert((known, section));
                }
            }
        }
    }
    let (Some(id), Some(date), Some((name, section))) = (id, date, cue) else { return Err(51) };
    if room < section.len() {
        return Err(36);
    }
    Ok(Said { id: id.to_vec(), date: date.to_vec(), name, section })
}

/// The name that a section is written under, by the crate's reading of it; or its refusal.
pub fn name(section: &[u8]) -> Result<&'static str, u64> {
    if section.len() < 3 || section.len() > 4096 {
        return Err(if section.len() < 3 { 1 } else { 2 });
    }
    match theirs::section(section, true) {
        Section::Refused(n) => Err(n.into()),
        Section::Accepted { command: Command::Insert { detail: Some(x), .. }, .. } => Ok(if x.out { "SCTE35-OUT" } else { "SCTE35-IN" }),
        Section::Accepted { .. } => Ok("SCTE35-CMD"),
    }
}

/// The line of a section, or its refusal, where the target has so much room.
pub fn write(section: &[u8], id: &[u8], date: &[u8], room: usize) -> Result<Vec<u8>, u64> {
    let name = name(section)?;
    if [id, date].concat().iter().any(|b| b"\"\r\n".contains(b)) {
        return Err(53);
    }
    let digits: String = section.iter().map(|b| format!("{b:02X}")).collect();
    let line = [TAG, b"ID=\"", id, b"\",START-DATE=\"", date, b"\",", name.as_bytes(), b"=0x", digits.as_bytes()].concat();
    if room < line.len() {
        return Err(36);
    }
    Ok(line)
}
