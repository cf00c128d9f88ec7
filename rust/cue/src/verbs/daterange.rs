//! `cue daterange`: cues in streaming playlists: an EXT-X-DATERANGE line for each cue, or the cues of such lines.
use crate::console::{Console, REFUSED, WRONG};
use crate::input::{self, next_line, Cue};
use crate::verbs::show;
use clap::{Arg, ArgAction, ArgMatches, Command};
use scte35::Daterange;
use serde_json::json;
use std::ffi::OsString;
use std::io::{self, Write};
use std::os::unix::ffi::OsStrExt;

/// What the lines begin with that are read; all others of a playlist are passed over.
const TAG: &[u8] = b"#EXT-X-DATERANGE:";

pub fn words(command: Command) -> Command {
    input::words(command)
        .mut_arg("cue", |cue| cue.required(false).required_unless_present("read"))
        .mut_arg("as", |form| form.conflicts_with("read"))
        .about("Writes an EXT-X-DATERANGE line for each cue, or shows the cues of such lines")
        .arg(text("id", "ID", "The ID of each line"))
        .arg(text("date", "DATE", "The START-DATE of each line, as it is to stand there"))
        .arg(Arg::new("read").long("read").action(ArgAction::SetTrue).help("The words are lines, @FILE or - (or none) for lines or a whole playlist"))
        .arg(
            Arg::new("json")
                .long("json")
                .action(ArgAction::SetTrue)
                .requires("read")
                .help("An object a cue, a line each, as `cue show --json`, with the line's own"),
        )
        .after_help(
            "SCTE35-OUT for a splice insert that leaves the network, SCTE35-IN for one that returns, SCTE35-CMD for all\n\
             else. Of a playlist all lines are passed over that do not begin with #EXT-X-DATERANGE: and such a line\n\
             without ID, START-DATE or a cue is said to be so (refusal 51, exit status 1).\n\n\
             Examples:\n  \
             cue daterange --id 1 --date 2026-01-01T00:00:00Z FC301100000000000000FFF0000000007A4FBFFF\n  \
             cue daterange --read --json @live.m3u8",
        )
}

fn text(name: &'static str, value: &'static str, help: &'static str) -> Arg {
    Arg::new(name)
        .long(name)
        .value_name(value)
        .value_parser(clap::value_parser!(OsString))
        .required_unless_present("read")
        .conflicts_with("read")
        .help(help)
}

pub fn run(words: &ArgMatches, console: &mut Console) -> io::Result<()> {
    if words.get_flag("read") {
        return read(words, console);
    }
    let given = |name| words.get_one::<OsString>(name).map_or(&[][..], |word| word.as_bytes());
    let (id, date) = (given("id"), given("date"));
    input::each(words, console, |console, cue| match scte35::write_daterange_to_vec(cue.bytes, id, date) {
        Ok(line) => {
            console.out.write_all(&line)?;
            console.out.write_all(b"\n")
        }
        Err(refusal) => {
            console.complain(REFUSED, cue.number, format_args!("refused: {refusal}"));
            Ok(())
        }
    })
}

fn read(words: &ArgMatches, console: &mut Console) -> io::Result<()> {
    let mut lines = Lines { json: words.get_flag("json"), number: 0, room: vec![], target: vec![] };
    let none = [OsString::from("-")];
    let given: Vec<&OsString> = words.get_many("cue").map_or(none.iter().collect(), Iterator::collect);
    for word in given {
        match input::source(word) {
            Err((name, why)) => console.say(WRONG, format_args!("{name}: {why}")),
            Ok(None) => lines.one(console, word.as_bytes())?,
            Ok(Some(mut source)) => {
                if let Err(why) = lines.all(console, &mut source)? {
                    console.say(WRONG, format_args!("{}: {why}", source.name));
                }
            }
        }
    }
    Ok(())
}

/// The lines that are read, and memory that is used again for each.
struct Lines {
    json: bool,
    number: u64,
    room: Vec<u8>,
    target: Vec<u8>,
}

impl Lines {
    /// The lines of a source that have the tag. The outer error is of writing, the inner one of reading.
    fn all(&mut self, console: &mut Console, source: &mut input::Source) -> io::Result<io::Result<()>> {
        let mut line = vec![];
        loop {
            if source.reader.buffer().is_empty() {
                console.out.flush()?;
            }
            match next_line(&mut source.reader, &mut line) {
                Ok(Some(Ok(_))) => {
                    let text = line.strip_suffix(b"\n").unwrap_or(&line);
                    let text = text.strip_suffix(b"\r").unwrap_or(text);
                    if text.starts_with(TAG) {
                        self.one(console, text)?;
                    }
                }
                Ok(Some(Err(why))) if line.starts_with(TAG) => {
                    self.number += 1;
                    console.complain(WRONG, self.number, why);
                }
                Ok(Some(Err(_))) => {}
                Ok(None) => return Ok(Ok(())),
                Err(why) => return Ok(Err(why)),
            }
        }
    }

    /// A line: its cue as `cue show` shows it, with the line's ID and date before it.
    fn one(&mut self, console: &mut Console, line: &[u8]) -> io::Result<()> {
        self.number += 1;
        self.target.resize(line.len() / 2, 0);
        let read = match scte35::read_daterange(line, &mut self.target) {
            Ok(read) => read,
            Err(refusal) => {
                console.complain(REFUSED, self.number, format_args!("refused: {refusal}"));
                return Ok(());
            }
        };
        let cue = Cue { number: self.number, bytes: read.section };
        let Daterange { id, date, name, .. } = read;
        let (id, date, name) = (String::from_utf8_lossy(id), String::from_utf8_lossy(date), name.name());
        if self.json {
            let about = json!({ "id": id, "start_date": date, "attribute": name });
            write!(console.out, "{{\"daterange\":{about},")?;
            return show::one_after(console, &mut self.room, &cue);
        }
        writeln!(console.out, "{name}, ID \"{id}\", START-DATE \"{date}\"")?;
        show::one(console, &mut self.room, false, &cue)
    }
}

#[cfg(test)]
mod tests {
    use crate::verbs::tests::*;
    use serde_json::Value;

    const DATE: &str = "2026-01-01T00:00:00Z";

    fn written(digits: &str) -> String {
        stdout(&["daterange", "--id", "a b", "--date", DATE, "--as", "hex", digits])
    }

    #[test]
    fn the_name_is_the_commands() {
        // an insert that leaves, one that returns, a cancelled one that was to leave, and others
        for (digits, name) in [
            (of_command(5, "00000001 7F EF FE2D142B00 FE0123D308 0001 01 01"), "OUT"),
            (of_command(5, "00000001 7F 5F 0001 01 01"), "IN"),
            (of_command(5, "00000001 FF"), "CMD"),
            (NULL.into(), "CMD"),
            (INCIDENT.replace(' ', ""), "CMD"),
            (of_command(7, ""), "CMD"),
            (of_command(255, "43554549 0102"), "CMD"),
        ] {
            let line = written(&digits);
            assert_eq!(line, format!("#EXT-X-DATERANGE:ID=\"a b\",START-DATE=\"{DATE}\",SCTE35-{name}=0x{digits}\n"));
            // and back
            let back = stdout(&["daterange", "--read", line.trim_end()]);
            let (first, rest) = back.split_once('\n').expect("two lines");
            assert_eq!(first, format!("SCTE35-{name}, ID \"a b\", START-DATE \"{DATE}\""));
            assert_eq!(rest, stdout(&["show", "--as", "hex", &digits]));
        }
    }

    #[test]
    fn a_playlist() {
        let list = format!(
            "#EXTM3U\r\n#EXT-X-VERSION:7\r\n#EXTINF:6,\r\na.ts\r\n\
             #EXT-X-DATERANGE:DURATION=1.5,SCTE35-OUT=0x{NULL},X-A=\"#EXT-X-DATERANGE:\",START-DATE=\"{DATE}\",ID=\"1\"\r\n\
             # a comment\r\n#EXT-X-DATERANGE:ID=\"2\",START-DATE=\"\",SCTE35-IN=0X{INCIDENT}"
        );
        let out = cue(&["daterange", "--read", "--json"]).write_stdin(list.clone()).output().expect("runs");
        assert_eq!(out.status.code(), Some(0), "{}", String::from_utf8_lossy(&out.stderr));
        let lines: Vec<Value> =
            out.stdout.split(|b| *b == b'\n').filter(|l| !l.is_empty()).map(|l| serde_json::from_slice(l).expect("JSON")).collect();
        assert_eq!(lines.len(), 2);
        assert_eq!(lines[0]["daterange"], serde_json::json!({ "id": "1", "start_date": DATE, "attribute": "SCTE35-OUT" }));
        assert_eq!(lines[1]["daterange"]["id"], "2");
        assert_eq!((&lines[0]["cue"], &lines[1]["cue"]), (&1.into(), &2.into()));
        assert_eq!(lines[1]["length"], 66);
        let shown = cue(&["daterange", "--read", "-"]).write_stdin(list).output().expect("runs");
        assert!(shown.stdout.starts_with(b"SCTE35-OUT, ID \"1\", START-DATE \"2026-01-01T00:00:00Z\"\ncue 1: splice_info_section, 20 bytes\n"));
    }

    #[test]
    fn refused() {
        for (number, digits) in refused_sections() {
            assert!(stderr(&["daterange", "--id", "1", "--date", DATE, "--as", "hex", &digits], 1).ends_with(&format!("(refusal {number})\n")));
        }
        assert!(stderr(&["daterange", "--id", "a\"b", "--date", DATE, NULL], 1).ends_with("(refusal 53)\n"));
        assert!(stderr(&["daterange", "--id", "1", "--date", "\n", NULL], 1).ends_with("(refusal 53)\n"));
        for (line, number) in [
            (format!("#EXT-X-DATERANGE:ID=\"1\",SCTE35-IN=0x{NULL}"), 51),
            (format!("#EXT-X-DATERANGE:ID=\"1\",START-DATE=\"{DATE}\""), 51),
            (format!("#EXT-X-DATERANGE:ID=1,START-DATE=\"{DATE}\",SCTE35-IN=0x{NULL}"), 52),
            ("#EXTINF:6,".into(), 52),
        ] {
            assert!(stderr(&["daterange", "--read", &line], 1).ends_with(&format!("(refusal {number})\n")), "{line}");
        }
        // the cue of a line that is read may itself be refused
        assert!(stderr(&["daterange", "--read", &format!("#EXT-X-DATERANGE:ID=\"1\",START-DATE=\"{DATE}\",SCTE35-CMD=0xFC30")], 1)
            .contains("(refusal 1)"));
        for words in [vec!["daterange", NULL], vec!["daterange", "--id", "1", NULL], vec!["daterange", "--read", "--id", "1", "-"]] {
            stderr(&words, 2);
        }
    }
}
