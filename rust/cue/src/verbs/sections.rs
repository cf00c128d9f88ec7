//! `cue sections`: the sections of a transport stream.
use crate::console::{Console, WRONG};
use crate::input::{self, Cue};
use crate::verbs::{make, show};
use clap::{Arg, ArgAction, ArgMatches, Command};
use scte35::packet::{Counts, Stream, PACKET, REFUSALS};
use std::ffi::{OsStr, OsString};
use std::io::{self, Read, Write};

/// How much is read at a time: whole packets.
const PIECE: usize = PACKET * 2048;

pub fn words(command: Command) -> Command {
    command
        .about("Shows the sections of one PID of a transport stream, each with the number of the packet that finished it")
        .arg(
            Arg::new("pid")
                .long("pid")
                .value_name("N")
                .required(true)
                .value_parser(pid)
                .help("The PID, in decimal or, with 0x before it, in hexadecimal"),
        )
        .arg(Arg::new("file").value_name("FILE").value_parser(clap::value_parser!(OsString)).help("Packets of 188 bytes; - or none: standard input"))
        .arg(Arg::new("json").long("json").action(ArgAction::SetTrue).help("An object a section, a line each, as `cue show --json`, with the packet"))
        .arg(make::to().help("The sections' bytes themselves, and nothing else").conflicts_with("json"))
        .after_help(
            "Packets are counted from 0, sections from 1. On standard error, at the end: packets by refusal, gaps in the\n\
             counter, repeats. A stream whose length is no multiple of 188, or that has lost its sync, is said to be so\n\
             with the byte; what is whole is still read. Exit status 1: a section was refused; 2: not a whole stream.\n\n\
             Example:\n  cue sections --pid 0x1F4 --to base64 stream.ts | cue check -",
        )
}

fn pid(text: &str) -> Result<u16, String> {
    let number = match text.strip_prefix("0x").or_else(|| text.strip_prefix("0X")) {
        Some(digits) => u16::from_str_radix(digits, 16),
        None => text.parse(),
    };
    number.ok().filter(|n| *n < 8192).ok_or_else(|| "a PID is a number from 0 to 8191".into())
}

pub fn run(words: &ArgMatches, console: &mut Console) -> io::Result<()> {
    let mut stream = Stream::new(words.get_one::<u16>("pid").copied().unwrap_or_default());
    let name = words.get_one::<OsString>("file").map_or(OsStr::new("-"), OsString::as_os_str);
    let mut source = match input::packets(name) {
        Ok(source) => source,
        Err((name, why)) => {
            console.say(WRONG, format_args!("{name}: {why}"));
            return Ok(());
        }
    };
    let (json, to) = (words.get_flag("json"), make::to_of(words));
    let mut piece = vec![0; PIECE];
    let (mut held, mut room, mut number) = (0, vec![], 0);
    source.begin(console);
    loop {
        let n = match source.reader.read(&mut piece[held..]) {
            Ok(0) => break,
            Ok(n) => n,
            Err(why) if why.kind() == io::ErrorKind::Interrupted => continue,
            Err(why) => {
                console.say(WRONG, format_args!("{}: {why}", source.name));
                break;
            }
        };
        held += n;
        let mut done = Ok(());
        let eaten = stream.eat(&piece[..held], |packet, bytes| {
            number += 1;
            if done.is_ok() {
                done = match to {
                    Some(to) => make::print(console, to, bytes),
                    None => one(console, &mut room, json, packet, &Cue { number, bytes }),
                };
            }
        });
        done?;
        piece.copy_within(eaten..held, 0);
        held -= eaten;
        console.progress.packets(n, stream.counts().packets);
    }
    console.progress.clear();
    tell(console, &source.name, stream.counts(), held);
    Ok(())
}

/// A section, as `cue show` shows it, with its packet before it.
fn one(console: &mut Console, room: &mut Vec<u8>, json: bool, packet: u64, cue: &Cue<'_>) -> io::Result<()> {
    if !json {
        writeln!(console.out, "packet {packet}")?;
        return show::one(console, room, false, cue);
    }
    write!(console.out, "{{\"packet\":{packet},")?;
    show::one_after(console, room, cue)
}

/// What was met, on standard error.
fn tell(console: &mut Console, name: &str, counts: &Counts, left: usize) {
    if let Some(at) = counts.lost_at {
        console.say(WRONG, format_args!("{name}: no packet at byte {at}: the sync is lost"));
    }
    if left > 0 {
        let at = counts.packets * PACKET as u64;
        console.say(WRONG, format_args!("{name}: {left} bytes behind the last whole packet, from byte {at} on"));
    }
    let refused: Vec<String> =
        REFUSALS.into_iter().filter(|r| counts.refused(*r) > 0).map(|r| format!("{} {} ({})", counts.refused(r), r.name(), r.number())).collect();
    let refused = if refused.is_empty() { "none refused".into() } else { format!("refused {}", refused.join(", ")) };
    let Counts { packets, sections, gaps, repeats, .. } = counts;
    console.say(0, format_args!("{packets} packets, {refused}; {sections} sections, {gaps} gaps, {repeats} repeats"));
}

#[cfg(test)]
mod tests {
    use crate::verbs::tests::*;
    use scte35::packet::PACKET;
    use std::path::{Path, PathBuf};

    /// A packet of PID 500 with a section at its start, and stuffing.
    fn packet(counter: u8, section: &str) -> Vec<u8> {
        let section = hex::decode(section).expect("hexadecimal");
        let mut p = vec![0xFF; PACKET];
        p[..5].copy_from_slice(&[0x47, 0x41, 0xF4, 0x10 | counter, 0]);
        p[5..][..section.len()].copy_from_slice(&section);
        p
    }

    /// A file that goes when it is dropped.
    struct Stream(PathBuf);

    impl Drop for Stream {
        fn drop(&mut self) {
            let _ = std::fs::remove_file(&self.0);
        }
    }

    impl Stream {
        fn path(&self) -> &Path {
            &self.0
        }
    }

    fn file(name: &str, packets: &[Vec<u8>]) -> Stream {
        let path = std::env::temp_dir().join(format!("cue-{name}-{}.ts", std::process::id()));
        std::fs::write(&path, packets.concat()).expect("written");
        Stream(path)
    }

    #[test]
    fn sections_of_a_stream() {
        let mut other = packet(0, NULL);
        other[2] = 0xF5;
        let stream = file("whole", &[other, packet(0, NULL), packet(0, NULL), packet(1, INCIDENT)]);
        let path = stream.path().to_str().expect("a name");
        let out = stdout(&["sections", "--pid", "500", "--to", "hex", path]);
        assert_eq!(out, format!("{NULL}\n{INCIDENT}\n"));
        let lines = stdout(&["sections", "--pid", "0x1F4", "--json", path]);
        let packets: Vec<_> = lines.lines().map(|l| serde_json::from_str::<serde_json::Value>(l).expect("JSON")["packet"].clone()).collect();
        assert_eq!(packets, [1, 3]);
        assert!(stdout(&["sections", "--pid", "500", path]).starts_with("packet 1\n"));
    }

    #[test]
    fn what_is_not_whole_is_said() {
        let mut bad = packet(1, NULL);
        bad[0] = 0;
        let stream = file("lost", &[packet(0, NULL), bad, vec![0x47; 5]]);
        let said = stderr(&["sections", "--pid", "500", stream.path().to_str().expect("a name")], 2);
        assert!(said.contains("no packet at byte 188"), "{said}");
        assert!(said.contains("5 bytes behind the last whole packet, from byte 376 on"), "{said}");
        assert!(said.contains("2 packets, refused 1 NotAPacket (71); 1 sections, 0 gaps, 0 repeats"), "{said}");
        assert!(stderr(&["sections", "--pid", "8192", "-"], 2).contains("a PID is a number from 0 to 8191"));
    }

    #[test]
    fn a_refused_section_is_told() {
        let stream = file("refused", &[packet(0, "FC30020000")]);
        assert!(stderr(&["sections", "--pid", "500", stream.path().to_str().expect("a name")], 1).contains("cue 1: refused"));
    }
}
