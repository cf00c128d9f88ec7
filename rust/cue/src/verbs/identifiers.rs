//! `cue identifiers`: where each identifier lies.
use crate::console::{Console, REFUSED};
use crate::input;
use crate::layout::{part, text_of};
use crate::text::{Hex, Quoted};
use clap::{ArgMatches, Command};
use scte35::{Identifier, IdentifierKind, Refusal};
use std::io::{self, Write};

pub fn words(command: Command) -> Command {
    input::words(command).about("Prints a line for each identifier: where it lies, and its bytes").after_help(
        "A line has, with one blank between: the cue; the item, counted from 1, or `command`; the level, 0 for a\n\
         UPID itself and 1 for a direct part of a MID; the type, or what it is; the type as written; the place in\n\
         the section, counted from 0; the length; the bytes; the text, where it is text. `-` stands for none.\n\n\
         Example:\n  cue identifiers /DA/AAAAAAAA///wBQb+AAAAAAApAidDVUVJAAAAKn+/DRgICBEiM0RVZneIAwxBQkNEMTIzNDU2NzgQAQGoahe8",
    )
}

pub fn run(words: &ArgMatches, console: &mut Console) -> io::Result<()> {
    input::each(words, console, |console, cue| {
        let section = match scte35::read_section(cue.bytes) {
            Ok(section) => section,
            Err(refusal) => {
                console.complain(REFUSED, cue.number, format_args!("refused: {refusal}"));
                return Ok(());
            }
        };
        for x in section.identifiers().take_while(|x| x.item.is_none()) {
            line(console, cue.number, "command", &x)?;
        }
        let base = section.descriptors.at();
        for (n, item) in section.descriptors.iter().enumerate() {
            let n = n + 1;
            for x in item.identifiers() {
                line(console, cue.number, &n.to_string(), &x)?;
            }
            // the text of a refused UPID is handed back, too
            if let Err(Refusal::InvalidUpidContent { upid_type, at, len, .. }) = item.item {
                let bytes = Hex(part(cue.bytes, base + at, len));
                writeln!(console.out, "{} {n} - refused {} {} {len} {bytes}", cue.number, upid_type.id(), base + at)?;
            }
        }
        Ok(())
    })
}

/// The line of an identifier of that item.
pub fn line(console: &mut Console, cue: u64, item: &str, x: &Identifier<'_>) -> io::Result<()> {
    write!(console.out, "{cue} {item} {} ", x.level)?;
    match (x.upid_type, x.written_type()) {
        (Some(reported), Some(written)) => write!(console.out, "{} {}", reported.id(), written.id())?,
        _ if x.kind == IdentifierKind::DtmfChars => write!(console.out, "DTMF_char -")?,
        _ => write!(console.out, "private_byte -")?,
    }
    // a run of no bytes is a place
    write!(console.out, " {} {} {}", x.at, x.len(), if x.bytes.is_empty() { "-" } else { "" })?;
    write!(console.out, "{}", Hex(x.bytes))?;
    match text_of(x) {
        Some(text) => writeln!(console.out, " {}", Quoted(text)),
        None => writeln!(console.out),
    }
}

#[cfg(test)]
mod tests {
    use crate::verbs::tests::*;

    #[test]
    fn the_incident() {
        let expected = "1 1 0 13 13 35 24 08081122334455667788030C414243443132333435363738
1 1 1 8 8 37 8 1122334455667788
1 1 1 3 3 47 12 414243443132333435363738 \"ABCD12345678\"
";
        assert_eq!(stdout(&["identifiers", INCIDENT]), expected);
    }

    #[test]
    fn every_kind() {
        let descriptors = [
            with_upid("0508 1122334455667788"),
            with_upid("0A0C 112233445566778899AABBCC"),
            with_upid("0800"),
            "010743554549B13F34".into(),
            "090441424344".into(),
            "090541424344AA".into(),
            with_upid("030C FF4243443132333435363738"),
        ];
        let expected = "1 1 0 6 5 31 8 1122334455667788
1 2 0 10 10 56 12 112233445566778899AABBCC
1 4 0 DTMF_char - 96 1 34 \"4\"
1 5 0 private_byte - 103 0 -
1 6 0 private_byte - 109 1 AA
1 7 - refused 3 124 12 FF4243443132333435363738
";
        assert_eq!(stdout(&["identifiers", &around(&descriptors.concat())]), expected);
        assert_eq!(stdout(&["identifiers", &of_command(255, "41424344 AABB")]), "1 command 0 private_byte - 18 2 AABB\n");
        assert_eq!(stdout(&["identifiers", NULL]), "");
    }

    #[test]
    fn refused() {
        let said = stderr(&["identifiers", NULL, "FC30", INCIDENT], 1);
        assert_eq!(said, "cue 2: refused: section under 3 bytes (refusal 1)\n");
    }
}
