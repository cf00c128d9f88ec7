//! `cue check`: is a cue accepted, is it canonical, and does writing what was read give its bytes again?
use crate::console::{Console, REFUSED};
use crate::input;
use crate::layout::{self, Kind};
use crate::names;
use clap::{ArgMatches, Command};
use scte35::Section;
use std::io::{self, Write};

pub fn words(command: Command) -> Command {
    input::words(command).about("Says of each cue whether it is accepted, canonical, and written back byte for byte").after_help(
        "A line for each cue. One that is not canonical is accepted all the same.\n\n\
         Example:\n  cue check FC301100000000000000FFF0000000007A4FBFFF",
    )
}

pub fn run(words: &ArgMatches, console: &mut Console) -> io::Result<()> {
    input::each(words, console, |console, cue| {
        write!(console.out, "cue {}: ", cue.number)?;
        match scte35::read_section(cue.bytes) {
            Err(refusal) => {
                console.status = console.status.max(REFUSED);
                writeln!(console.out, "refused: {refusal}")
            }
            Ok(section) => {
                let written = match section.write_back_to_vec() {
                    Ok(bytes) if bytes == cue.bytes => "the same bytes".into(),
                    Ok(bytes) => format!("other bytes, {} for {}", bytes.len(), cue.bytes.len()),
                    Err(refusal) => format!("refused: {refusal}"),
                };
                let form = match scte35::is_canonical_section(cue.bytes) {
                    true => "canonical".into(),
                    false => format!("not canonical ({})", first_fault(cue.bytes, &section)),
                };
                writeln!(console.out, "accepted; {form}; written back: {written}")
            }
        }
    })
}

/// What is not canonical, at the first place. Each part of the section is compared with what the library writes for it.
fn first_fault(bytes: &[u8], section: &Section<'_>) -> String {
    let mut faults = vec![];
    faults.extend(command_fault(bytes, section));
    faults.extend(section.descriptors.iter().enumerate().find_map(|(n, item)| item_fault(bytes, section, n + 1, &item)));
    let end = section.descriptors.at() + section.descriptors.bytes().len();
    if end + 4 < bytes.len() {
        faults.push((end, format!("{} spare at {end}, before CRC_32", names::bytes(bytes.len() - 4 - end))));
    }
    // the bits before section_length, and it, too, where nothing else differs in length
    if let Ok(written) = section.write_back_to_vec() {
        let same_length = written.len() == bytes.len();
        let differs = |at: usize, mask: u8| (bytes[at] & mask != written[at] & mask).then(|| (at, byte(bytes, section, at, written[at])));
        faults.extend(differs(1, if same_length { 0xFF } else { 0xF0 }).or_else(|| if same_length { differs(2, 0xFF) } else { None }));
    }
    let first = faults.into_iter().min_by_key(|(at, _)| *at);
    first.map_or("its parts are".into(), |(_, what)| what)
}

fn command_fault(bytes: &[u8], section: &Section<'_>) -> Option<(usize, String)> {
    let (at, len) = (layout::COMMAND_AT, usize::from(section.header.splice_command_length));
    match scte35::write_command_to_vec(&section.command) {
        Ok(written) => difference(bytes, section, at, len, &written, "the command"),
        // what is read and can't be written is an insert's reserved bits, behind its event id
        Err(refusal) => Some((at + 4, format!("the command's reserved bits at {}: {refusal}", at + 4))),
    }
}

fn item_fault(bytes: &[u8], section: &Section<'_>, n: usize, item: &scte35::Item<'_>) -> Option<(usize, String)> {
    let at = section.descriptors.at() + item.offset;
    match &item.item {
        Err(refusal) => Some((at, format!("item {n} at {at} is refused: {refusal}"))),
        Ok(descriptor) => match scte35::write_descriptor_to_vec(descriptor) {
            Ok(written) => difference(bytes, section, at, item.len, &written, &format!("item {n}")),
            Err(refusal) => Some((at, format!("item {n} at {at}: {refusal}"))),
        },
    }
}

/// Where a part first differs from what is written for it. A descriptor with spare bytes has another length, too: the spare bytes are named.
fn difference(bytes: &[u8], section: &Section<'_>, at: usize, len: usize, written: &[u8], what: &str) -> Option<(usize, String)> {
    let own = layout::part(bytes, at, len);
    let is_item = at >= section.descriptors.at();
    let skipped = |k: usize| is_item && k == 1 && own.len() != written.len();
    if let Some(k) = (0..own.len().min(written.len())).find(|k| own[*k] != written[*k] && !skipped(*k)) {
        return Some((at + k, byte(bytes, section, at + k, written[k])));
    }
    let spare = own.len().checked_sub(written.len()).filter(|n| *n > 0)?;
    Some((at + written.len(), format!("{} spare at {}, in {what}", names::bytes(spare), at + written.len())))
}

/// A byte with the field that it belongs to, and what the canonical form has there.
fn byte(bytes: &[u8], section: &Section<'_>, at: usize, canonical: u8) -> String {
    let rows = layout::rows(bytes, section);
    let name = rows.iter().find(|row| row.at <= at && at < row.at + row.len && row.kind != Kind::Spare).map_or("spare", |row| row.name.as_str());
    format!("byte {at} is {:02X}, canonical {canonical:02X}: {name}", layout::part(bytes, at, 1).first().copied().unwrap_or(0))
}

#[cfg(test)]
mod tests {
    use crate::verbs::tests::*;

    #[test]
    fn canonical() {
        let line = "accepted; canonical; written back: the same bytes\n";
        assert_eq!(stdout(&["check", INCIDENT, NULL]), format!("cue 1: {line}cue 2: {line}"));
    }

    #[test]
    fn the_first_thing_that_is_not_canonical() {
        for (digits, fault, written) in [
            // the bits before section_length, it, and what stands before the CRC
            (with_crc("FC001100000000000000FFF000000000"), "byte 1 is 00, canonical 30: section_syntax_indicator, ", "other bytes, 20 for 20"),
            (with_crc("FC301200000000000000FFF000000000"), "byte 2 is 12, canonical 11: section_syntax_indicator, ", "other bytes, 20 for 20"),
            (with_crc("FC301300000000000000FFF000000000AABB"), "2 bytes spare at 16, before CRC_32", "other bytes, 20 for 22"),
            // a command's reserved bits, and bytes behind it
            (of_command(6, "F800000000"), "byte 14 is F8, canonical FE: time_specified_flag, reserved, pts_time", "other bytes, 25 for 25"),
            (of_command(6, "FE00000000AA"), "1 byte spare at 19, in the command", "other bytes, 25 for 26"),
            (of_command(5, "000000010F5F00010000"), "reserved bits at 18: a value that no canonical reading has (refusal 33)", "refused: "),
            // a descriptor's
            (around("000943554549 00000135 AA"), "1 byte spare at 27, in item 1", "other bytes"),
            (around(&with_upid("0800")), "byte 29 is 08, canonical 00: segmentation_upid_type", "other bytes"),
            (around("00084355454900000135000443554549"), "item 2 at 27 is refused: not enough data: 4 expected, 0 there (refusal 21)", "refused: "),
        ] {
            let said = stdout(&["check", &digits]);
            assert!(said.starts_with("cue 1: accepted; not canonical (") && said.contains(fault), "{said}");
            assert!(said.contains(&format!("; written back: {written}")), "{said}");
        }
    }

    #[test]
    fn refused() {
        for (number, digits) in refused_sections() {
            let output = cue(&["check", "--as", "hex", &digits]).output().unwrap();
            assert_eq!((output.status.code(), output.stderr.len()), (Some(1), 0));
            assert!(String::from_utf8(output.stdout).unwrap().ends_with(&format!("(refusal {number})\n")));
        }
    }
}
