//! Cues in streaming playlists: EXT-X-DATERANGE lines of RFC 8216, written of a section and read.
use crate::raw;
use crate::refusal::Refusal;
use crate::{view, MAX_SECTION};

/// The names that a cue's attribute may have. More will not come.
#[derive(Debug, Clone, Copy, PartialEq, Eq, Hash)]
pub enum CueName {
    /// SCTE35-CMD
    Cmd,
    /// SCTE35-OUT: a splice insert that leaves the network
    Out,
    /// SCTE35-IN: a splice insert that returns
    In,
}

impl CueName {
    /// The name as it stands in a line.
    pub fn name(self) -> &'static str {
        match self {
            CueName::Cmd => "SCTE35-CMD",
            CueName::Out => "SCTE35-OUT",
            CueName::In => "SCTE35-IN",
        }
    }

    fn of(number: u64) -> CueName {
        match number {
            1 => CueName::Cmd,
            2 => CueName::Out,
            _ => CueName::In,
        }
    }
}

/// What a line says.
#[derive(Debug, Clone, Copy, PartialEq, Eq, Hash)]
#[non_exhaustive]
pub struct Daterange<'a> {
    /// the value of ID, without its quotes
    pub id: &'a [u8],
    /// that of START-DATE
    pub date: &'a [u8],
    /// the cue's attribute: of several the first in the line
    pub name: CueName,
    /// the section, not judged: hand it to `read_section`
    pub section: &'a [u8],
}

/// Reads a line, which has no line end; the section's bytes go into the target. Half the line's length is always enough. Refused with the first that applies
/// of `Refusal::MalformedLine`, `Refusal::AttributeMissing`, `Refusal::TargetTooShort`.
pub fn read_daterange<'a>(line: &'a [u8], target: &'a mut [u8]) -> Result<Daterange<'a>, Refusal> {
    let answer = raw::read_daterange(line, 0, target);
    said(line, &answer, &target[..answer.length as usize])
}

/// What `read_daterange` reads, with the section in a vector that is made as long as it: what stood there is gone. A refused line leaves it empty.
pub fn read_daterange_to_vec<'a>(line: &'a [u8], section: &'a mut Vec<u8>) -> Result<Daterange<'a>, Refusal> {
    section.clear();
    section.resize(line.len() / 2, 0);
    let answer = raw::read_daterange(line, 0, section);
    section.truncate(answer.length as usize);
    said(line, &answer, section)
}

/// What a line says, with its section. Of a refused one the length is 0.
fn said<'a>(line: &'a [u8], answer: &raw::Daterange, section: &'a [u8]) -> Result<Daterange<'a>, Refusal> {
    match answer.refusal {
        0 => Ok(Daterange { id: view(line, &answer.id), date: view(line, &answer.date), name: CueName::of(answer.name), section }),
        n => Err(Refusal::answered(n, [0; 3])),
    }
}

/// Writes a section's line, without a line end, from the target's first byte on; says how many bytes that are. Refused with 1 to 11 for the section, then
/// `Refusal::Unquotable` for ID or date, then `Refusal::TargetTooShort`.
pub fn write_daterange(section: &[u8], id: &[u8], date: &[u8], target: &mut [u8]) -> Result<usize, Refusal> {
    let answer = raw::write_daterange(section, 0, id, date, target);
    match answer.refusal {
        0 => Ok(answer.length as usize),
        n => Err(Refusal::answered(n, [0; 3])),
    }
}

/// What `write_daterange` writes, as bytes of their own.
pub fn write_daterange_to_vec(section: &[u8], id: &[u8], date: &[u8]) -> Result<Vec<u8>, Refusal> {
    // 50 bytes of tag, names and quotes at most
    let mut target = vec![0; 50 + id.len() + date.len() + 2 * section.len().min(MAX_SECTION)];
    let length = write_daterange(section, id, date, &mut target)?;
    target.truncate(length);
    Ok(target)
}
