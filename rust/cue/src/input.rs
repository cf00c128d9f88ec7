//! Where cues come from: words of the command line, files, standard input; as hexadecimal, base64 or raw bytes.
use crate::console::{Console, WRONG};
use clap::{Arg, ArgAction, ArgMatches, Command};
use indicatif::{ProgressBar, ProgressStyle};
use std::ffi::{OsStr, OsString};
use std::fmt::{self, Display};
use std::fs::File;
use std::io::{self, BufRead, BufReader, IsTerminal, Read, Write};
use std::os::fd::AsFd;
use std::os::unix::ffi::OsStrExt;
use std::time::{Duration, Instant};

/// The longest line that is looked at. The longest section takes 8,192 digits.
const MAX_LINE: usize = 1 << 16;

#[derive(Debug, Clone, Copy, PartialEq, Eq)]
pub enum Form {
    /// as the text itself tells
    Guess,
    Hex,
    Base64,
    Raw,
}

/// A cue of the input, counted from 1.
pub struct Cue<'a> {
    pub number: u64,
    pub bytes: &'a [u8],
}

/// Adds the words that say where cues come from.
pub fn words(command: Command) -> Command {
    command
        .arg(
            Arg::new("cue")
                .value_name("CUE")
                .help("base64, hexadecimal, @FILE, or - for standard input (a cue a line, or one as raw bytes)")
                .value_parser(clap::value_parser!(OsString))
                .action(ArgAction::Append)
                .required(true),
        )
        .arg(
            Arg::new("as")
                .long("as")
                .value_name("FORM")
                .help("What the input is, where its first characters don't tell")
                .value_parser(["hex", "base64", "raw"]),
        )
}

/// What `--as` says.
pub fn form(words: &ArgMatches) -> Form {
    match words.get_one::<String>("as").map(String::as_str) {
        Some("hex") => Form::Hex,
        Some("base64") => Form::Base64,
        Some("raw") => Form::Raw,
        _ => Form::Guess,
    }
}

/// Hands each cue of the words on, in order. What is no cue's text is complained of and passed over.
pub fn each(words: &ArgMatches, console: &mut Console, mut take: impl FnMut(&mut Console, Cue<'_>) -> io::Result<()>) -> io::Result<()> {
    let form = form(words);
    let mut number = 0;
    let mut room = Room::default();
    for word in words.get_many::<OsString>("cue").into_iter().flatten() {
        match source(word) {
            Err((name, why)) => console.say(WRONG, format_args!("{name}: {why}")),
            Ok(None) => one(word.as_bytes(), form, &mut number, &mut room, console, &mut take)?,
            Ok(Some(mut source)) => {
                console.progress.begin(source.size);
                let done = all(&mut source, form, &mut number, &mut room, console, &mut take)?;
                console.progress.clear();
                if let Err(why) = done {
                    console.say(WRONG, format_args!("{}: {why}", source.name));
                }
            }
        }
    }
    Ok(())
}

/// A file or standard input.
pub struct Source {
    pub name: String,
    pub reader: BufReader<Box<dyn Read>>,
    /// of a file
    size: Option<u64>,
}

fn buffered(from: impl Read + 'static) -> BufReader<Box<dyn Read>> {
    BufReader::with_capacity(1 << 16, Box::new(from))
}

/// What a word names: none where it is no file. Its name and what is wrong where it can't be opened.
pub fn source(word: &OsStr) -> Result<Option<Source>, (String, io::Error)> {
    if word == "-" {
        let stdin = io::stdin();
        let size = stdin.as_fd().try_clone_to_owned().ok().and_then(|fd| File::from(fd).metadata().ok()).filter(|m| m.is_file()).map(|m| m.len());
        return Ok(Some(Source { name: "standard input".into(), reader: buffered(stdin.lock()), size }));
    }
    let Some(path) = word.as_bytes().strip_prefix(b"@") else { return Ok(None) };
    let path = OsStr::from_bytes(path);
    let name = path.to_string_lossy().into_owned();
    let opened = File::open(path).and_then(|file| {
        let about = file.metadata()?;
        if about.is_dir() {
            return Err(io::Error::new(io::ErrorKind::Other, "a folder"));
        }
        Ok((file, about.is_file().then_some(about.len())))
    });
    match opened {
        Ok((file, size)) => Ok(Some(Source { name, reader: buffered(file), size })),
        Err(why) => Err((name, why)),
    }
}

/// A file, or standard input for `-`.
pub fn packets(name: &OsStr) -> Result<Source, (String, io::Error)> {
    let mut word = OsString::from(if name == "-" { "" } else { "@" });
    word.push(name);
    source(&word).map(|source| source.unwrap_or_else(|| unreachable!("a file or standard input")))
}

impl Source {
    /// Begins its line of progress.
    pub fn begin(&self, console: &mut Console) {
        console.progress.begin(self.size);
    }
}

/// Memory that is used again for each cue.
#[derive(Default)]
struct Room {
    line: Vec<u8>,
    digits: Vec<u8>,
    bytes: Vec<u8>,
}

type Take<'a> = dyn FnMut(&mut Console, Cue<'_>) -> io::Result<()> + 'a;

/// One cue's text.
fn one(text: &[u8], form: Form, number: &mut u64, room: &mut Room, console: &mut Console, take: &mut Take) -> io::Result<()> {
    *number += 1;
    match decode(text, form, &mut room.digits, &mut room.bytes) {
        Ok(()) => take(console, Cue { number: *number, bytes: &room.bytes }),
        Err(why) => {
            console.complain(WRONG, *number, why);
            Ok(())
        }
    }
}

/// All cues of a source. The outer error is of writing, the inner one of reading.
fn all(source: &mut Source, form: Form, number: &mut u64, room: &mut Room, console: &mut Console, take: &mut Take) -> io::Result<io::Result<()>> {
    let reader = &mut source.reader;
    let first = match reader.fill_buf() {
        Ok(bytes) => bytes.first().copied(),
        Err(why) => return Ok(Err(why)),
    };
    // a section's first byte is no text's
    if form == Form::Raw || (form == Form::Guess && first == Some(0xFC)) {
        room.bytes.clear();
        if let Err(why) = reader.take(MAX_LINE as u64).read_to_end(&mut room.bytes) {
            return Ok(Err(why));
        }
        *number += 1;
        return take(console, Cue { number: *number, bytes: &room.bytes }).map(Ok);
    }
    let mut line = std::mem::take(&mut room.line);
    loop {
        if reader.buffer().is_empty() {
            // the next line may be long in coming: a log that is being written
            console.out.flush()?;
        }
        match next_line(reader, &mut line) {
            Ok(Some(Ok(read))) => {
                console.progress.step(read, *number);
                let text = line.trim_ascii();
                if !text.is_empty() {
                    one(text, form, number, room, console, take)?;
                }
            }
            Ok(Some(Err(TooLong))) => {
                *number += 1;
                console.complain(WRONG, *number, TooLong);
            }
            Ok(None) => break,
            Err(why) => return Ok(Err(why)),
        }
    }
    room.line = line;
    Ok(Ok(()))
}

/// A line of more than `MAX_LINE` bytes.
pub struct TooLong;

impl Display for TooLong {
    fn fmt(&self, f: &mut fmt::Formatter<'_>) -> fmt::Result {
        write!(f, "a line of more than {MAX_LINE} bytes is no cue's text")
    }
}

/// The next line, and how many bytes it took; none at the end. Of a line that is too long the rest is passed over.
pub fn next_line(reader: &mut impl BufRead, line: &mut Vec<u8>) -> io::Result<Option<Result<usize, TooLong>>> {
    line.clear();
    let read = reader.by_ref().take(MAX_LINE as u64 + 1).read_until(b'\n', line)?;
    if read == 0 {
        return Ok(None);
    }
    if read <= MAX_LINE || line.ends_with(b"\n") {
        return Ok(Some(Ok(read)));
    }
    loop {
        let rest = reader.fill_buf()?;
        let (used, ended) = match rest.iter().position(|b| *b == b'\n') {
            Some(at) => (at + 1, true),
            None => (rest.len(), rest.is_empty()),
        };
        reader.consume(used);
        if ended {
            return Ok(Some(Err(TooLong)));
        }
    }
}

/// Why a text is no cue's.
#[derive(Debug, PartialEq, Eq)]
pub enum NoCue {
    Empty,
    /// neither hexadecimal nor base64
    Neither,
    OddDigits(usize),
    /// a character that the form has not, and its place, from 1 on
    Character(&'static str, u8, usize),
    Base64(base64::DecodeError),
}

impl Display for NoCue {
    fn fmt(&self, f: &mut fmt::Formatter<'_>) -> fmt::Result {
        match self {
            NoCue::Empty => f.write_str("no text"),
            NoCue::Neither => f.write_str("neither hexadecimal nor base64"),
            NoCue::OddDigits(n) => write!(f, "not hexadecimal: an odd number of digits, {n}"),
            NoCue::Character(form, c, at) => write!(f, "not {form}: '{}' as its character {at}", c.escape_ascii()),
            NoCue::Base64(base64::DecodeError::InvalidLength) => f.write_str("not base64: characters are missing"),
            NoCue::Base64(base64::DecodeError::InvalidLastSymbol(..)) => {
                f.write_str("not base64: its last character has bits set that belong to no byte")
            }
            NoCue::Base64(base64::DecodeError::InvalidByte(at, c)) => write!(f, "not base64: '{}' as its character {}", c.escape_ascii(), at + 1),
        }
    }
}

/// The bytes of a cue's text. `digits` is room to work in.
pub fn decode(text: &[u8], form: Form, digits: &mut Vec<u8>, bytes: &mut Vec<u8>) -> Result<(), NoCue> {
    let text = text.trim_ascii();
    match form {
        Form::Raw => {
            bytes.clear();
            bytes.extend_from_slice(text);
            Ok(())
        }
        Form::Hex => from_hex(text, digits, bytes),
        Form::Base64 => from_base64(text, digits, bytes),
        Form::Guess => match text {
            [] => Err(NoCue::Empty),
            // 0xFC: as digits, and as the first 6 bits of base64 with 2 more that are 0
            [b'F' | b'f', b'C' | b'c', ..] | [b'0', b'x' | b'X', ..] => from_hex(text, digits, bytes),
            [b'/' | b'_', b'A'..=b'P', ..] => from_base64(text, digits, bytes),
            _ => from_hex(text, digits, bytes).or_else(|_| from_base64(text, digits, bytes)).map_err(|_| NoCue::Neither),
        },
    }
}

fn from_hex(text: &[u8], digits: &mut Vec<u8>, bytes: &mut Vec<u8>) -> Result<(), NoCue> {
    let plain = text.strip_prefix(b"0x").or_else(|| text.strip_prefix(b"0X")).unwrap_or(text);
    if plain.is_empty() {
        return Err(NoCue::Empty);
    }
    // as most are: digits alone
    bytes.clear();
    bytes.resize(plain.len() / 2, 0);
    if plain.len() % 2 == 0 && hex::decode_to_slice(plain, bytes).is_ok() {
        return Ok(());
    }
    digits.clear();
    for (at, c) in plain.iter().enumerate() {
        match c {
            b'0'..=b'9' | b'a'..=b'f' | b'A'..=b'F' => digits.push(*c),
            b' ' | b'\t' | b'\r' | b'\n' | b':' => {}
            // `0xFC 0x30`
            b'x' | b'X' if digits.last() == Some(&b'0') && digits.len() % 2 == 1 => {
                digits.pop();
            }
            c => return Err(NoCue::Character("hexadecimal", *c, at + 1 + text.len() - plain.len())),
        }
    }
    if digits.len() % 2 == 1 {
        return Err(NoCue::OddDigits(digits.len()));
    }
    bytes.resize(digits.len() / 2, 0);
    hex::decode_to_slice(digits, bytes).map_err(|_| NoCue::Neither)
}

fn from_base64(text: &[u8], digits: &mut Vec<u8>, bytes: &mut Vec<u8>) -> Result<(), NoCue> {
    let padding = text.iter().rev().take(2).take_while(|c| **c == b'=').count();
    digits.clear();
    digits.extend(text[..text.len() - padding].iter().filter(|c| !c.is_ascii_whitespace()).map(|c| match c {
        b'-' => b'+',
        b'_' => b'/',
        c => *c,
    }));
    if digits.is_empty() {
        return Err(NoCue::Empty);
    }
    bytes.clear();
    base64::decode_config_buf(digits, base64::STANDARD_NO_PAD, bytes).map_err(NoCue::Base64)
}

/// How far a file is read: a bar on standard error where that is a terminal.
#[derive(Default)]
pub struct Progress {
    size: Option<u64>,
    read: u64,
    next: Option<Instant>,
    bar: Option<ProgressBar>,
}

impl Progress {
    /// `size` is that of a file.
    fn begin(&mut self, size: Option<u64>) {
        *self = Progress { size: size.filter(|n| *n > 0 && io::stderr().is_terminal()), ..Progress::default() };
    }

    /// So many bytes more; after so many cues.
    fn step(&mut self, bytes: usize, cues: u64) {
        if self.size.is_none() {
            return;
        }
        self.read += bytes as u64;
        if cues % 1024 == 0 {
            self.show(cues, "cues");
        }
    }

    /// So many bytes more; after so many packets.
    pub fn packets(&mut self, bytes: usize, packets: u64) {
        self.read += bytes as u64;
        self.show(packets, "packets");
    }

    fn show(&mut self, count: u64, what: &str) {
        let Some(size) = self.size else { return };
        let now = Instant::now();
        match self.next {
            // what is over soon needs no bar
            None => self.next = Some(now + Duration::from_secs(1)),
            Some(next) if now >= next => {
                self.next = Some(now + Duration::from_millis(250));
                let bar = self.bar.get_or_insert_with(|| bar(size));
                bar.set_position(self.read);
                bar.set_message(format!("{count} {what}"));
            }
            Some(_) => {}
        }
    }

    /// Takes the bar from the screen.
    pub fn clear(&mut self) {
        if let Some(bar) = self.bar.take() {
            bar.finish_and_clear();
        }
    }
}

/// A bar of so many bytes, their share, and a message.
fn bar(size: u64) -> ProgressBar {
    let style = ProgressStyle::with_template("{wide_bar} {percent:>3} %  {msg}").unwrap_or_else(|_| ProgressStyle::default_bar());
    ProgressBar::new(size).with_style(style)
}

#[cfg(test)]
mod tests {
    use super::*;

    fn decoded(text: &[u8], form: Form) -> Result<Vec<u8>, NoCue> {
        let mut bytes = vec![];
        decode(text, form, &mut vec![], &mut bytes).map(|()| bytes)
    }

    #[test]
    fn each_form_is_guessed() {
        let bytes = Ok(vec![0xFC, 0x30, 0x25, 0xFF, 0xFB]);
        for text in [
            "FC3025FFFB",
            "fc3025fffb",
            "0xFC3025FFFB",
            "0Xfc3025fffb",
            "FC 30 25 FF FB",
            "FC:30:25:FF:FB",
            "0xFC 0x30 0x25 0xFF 0xFB",
            "/DAl//s=",
            "/DAl//s",
            "_DAl__s",
            "_DAl__s=",
            " FC3025FFFB\r",
            "/DAl\n//s=",
        ] {
            assert_eq!(decoded(text.as_bytes(), Form::Guess), bytes, "{text}");
        }
    }

    #[test]
    fn a_form_that_is_named_is_taken() {
        assert_eq!(decoded(b"FC30", Form::Base64), Ok(base64::decode("FC30").unwrap()));
        assert_eq!(decoded(b"FC30", Form::Raw), Ok(b"FC30".to_vec()));
        assert_eq!(decoded(b"0030", Form::Hex), Ok(vec![0, 0x30]));
        // a damaged first byte: hexadecimal where it can be, else base64
        assert_eq!(decoded(b"0030", Form::Guess), Ok(vec![0, 0x30]));
        assert_eq!(decoded(b"0DAl//s=", Form::Guess), Ok(base64::decode("0DAl//s=").unwrap()));
    }

    #[test]
    fn what_is_no_text_of_a_cue() {
        assert_eq!(decoded(b"", Form::Guess), Err(NoCue::Empty));
        assert_eq!(decoded(b"0x", Form::Guess), Err(NoCue::Empty));
        assert_eq!(decoded(b"=", Form::Base64), Err(NoCue::Empty));
        assert_eq!(decoded(b"FC3", Form::Guess), Err(NoCue::OddDigits(3)));
        assert_eq!(decoded(b"FC3g", Form::Guess), Err(NoCue::Character("hexadecimal", b'g', 4)));
        assert_eq!(decoded(b"0xFC3g", Form::Guess), Err(NoCue::Character("hexadecimal", b'g', 6)));
        assert_eq!(decoded(b"hello, world", Form::Guess), Err(NoCue::Neither));
        assert!(matches!(decoded(b"/DAl/", Form::Guess), Err(NoCue::Base64(_))));
        assert!(matches!(decoded(b"/D!l", Form::Guess), Err(NoCue::Base64(_))));
    }

    #[test]
    fn long_lines_are_passed_over() {
        let mut text = vec![b'F'; MAX_LINE + 70000];
        text.extend(b"\nFC\n");
        text.extend(vec![b'F'; MAX_LINE]);
        text.extend(b"\n");
        text.extend(vec![b'F'; MAX_LINE + 1]);
        let mut reader = BufReader::with_capacity(100, &text[..]);
        let mut line = vec![];
        assert!(matches!(next_line(&mut reader, &mut line), Ok(Some(Err(TooLong)))));
        assert!(matches!(next_line(&mut reader, &mut line), Ok(Some(Ok(3)))));
        assert_eq!(line, b"FC\n");
        assert!(matches!(next_line(&mut reader, &mut line), Ok(Some(Ok(n))) if n == MAX_LINE + 1));
        assert!(matches!(next_line(&mut reader, &mut line), Ok(Some(Err(TooLong)))));
        assert!(matches!(next_line(&mut reader, &mut line), Ok(None)));
    }
}
