//! daterange N SEED: at least N lines, drawn and damaged, and a twelfth as many writes, through the proved reader and writer and plain second ones; ends with 1
//! on a difference and on a case that was not reached.
//! daterange real FILE: the lines of FILE, each behind what it is to be answered, as host/playlists.txt has them.
//! daterange playlist N SEED: a playlist with N lines that are written here, for another reader; in comments what each was written of.
//! daterange gate FOLDER: `stdin` and `stdout` of crates/run_daterange.
//! daterange turn read|write|section|behind|many N TIMES: for a count of instructions, so many times: the line of a section of N bytes read or written, the
//! section read, a line read with N attributes behind a cue of 4,000 bytes, or one of N attributes and no cue.
use differ::answer::{hex, unhex};
use differ::packets::{cue, table};
use differ::playlist::{plain, Playlists};
use differ::rng::Rng;
use differ::theirs;
use std::fmt::Write;
use std::time::Instant;

fn wanted() -> Vec<(&'static str, String)> {
    let mut out = vec![];
    let mut add = |group: &'static str, names: &[&str]| out.extend(names.iter().map(|n| (group, n.to_string())));
    add("refused", &["36", "51", "52"]);
    add("read", &["SCTE35-CMD", "SCTE35-OUT", "SCTE35-IN", "the first of several cues", "with unknown attributes", "though something was changed"]);
    add("written", &["SCTE35-CMD", "SCTE35-OUT", "SCTE35-IN"]);
    add("not written", &["1", "2", "3", "4", "5", "6", "7", "8", "9", "10", "11", "36", "53"]);
    add("attributes", &["0", "1", "2", "3", "4", "5", "6", "7 and more"]);
    out
}

fn compare(n: u64, seed: u64) {
    let start = Instant::now();
    let mut playlists = Playlists::new(seed);
    while playlists.lines < n {
        for _ in 0..8 {
            playlists.drawn();
        }
        playlists.write_drawn();
        playlists.write_drawn();
    }
    let mut group = "";
    for ((g, name), count) in &playlists.counts {
        if *g != group {
            println!("{g}:");
            group = g;
        }
        println!("  {count:>9}  {name}");
    }
    let missing: Vec<_> = wanted().into_iter().filter(|x| !playlists.counts.contains_key(x)).collect();
    missing.iter().for_each(|(group, name)| println!("NOT REACHED, {group}: {name}"));
    println!(
        "seed {seed}: {} lines, {} writes, {} cases not reached, {} differences, {:.1} s",
        playlists.lines,
        playlists.writes,
        missing.len(),
        playlists.differing,
        start.elapsed().as_secs_f64()
    );
    if playlists.differing > 0 || !missing.is_empty() {
        std::process::exit(1);
    }
}

/// `= NAME ID DATE` or `= REFUSAL` before each line; other lines that begin with a blank or a hyphen are comments.
fn real(file: &str) {
    let text = std::fs::read_to_string(file).expect(file);
    let mut playlists = Playlists::new(1);
    let (mut expected, mut wrong) = ("", 0);
    for line in text.lines() {
        if let Some(answer) = line.strip_prefix("= ") {
            expected = answer;
        } else if line.starts_with('#') {
            let told = match playlists.line(line.as_bytes(), 4096) {
                Err(n) => n.to_string(),
                Ok(x) => format!("{} {} {} {}", x.name, String::from_utf8_lossy(&x.id), String::from_utf8_lossy(&x.date), x.section.len()),
            };
            if told != expected {
                println!("{line}\n    {told} here, {expected} expected");
                wrong += 1;
            }
        }
    }
    println!("{} lines of public documents, {wrong} read otherwise, {} differences", playlists.lines, playlists.differing);
    if wrong > 0 || playlists.differing > 0 || playlists.lines == 0 {
        std::process::exit(1);
    }
}

fn playlist(n: usize, seed: u64) {
    let mut rng = Rng::new(seed);
    let mut out = String::from("#EXTM3U\n#EXT-X-VERSION:7\n#EXT-X-TARGETDURATION:6\n#EXT-X-PROGRAM-DATE-TIME:2026-01-01T00:00:00.000Z\n");
    for k in 0..n {
        let section = cue(&mut rng);
        let (id, date) = (format!("cue, {k}"), format!("2026-01-01T{:02}:{:02}:{:02}.000Z", k / 3600 % 24, k / 60 % 60, k % 60));
        let line = scte35::write_daterange_to_vec(&section, id.as_bytes(), date.as_bytes()).expect("a cue is written");
        let name = plain::name(&section).expect("a cue");
        writeln!(out, "# {id}|{date}|{name}|0x{}\n{}\n#EXTINF:6.0,\n{k}.ts", hex(&section).to_uppercase(), String::from_utf8(line).expect("text"))
            .unwrap();
    }
    print!("{out}");
}

/// The section with a right CRC behind it.
fn closed(mut section: Vec<u8>) -> Vec<u8> {
    let crc = scte35::crc(&section);
    section.extend(crc.to_be_bytes());
    section
}

const HEAD: &str = "#EXT-X-DATERANGE:";

/// A line with a section.
fn with(section: &[u8]) -> String {
    format!("{HEAD}ID=\"1\",START-DATE=\"2026-01-01T00:00:00Z\",SCTE35-CMD=0x{}", hex(section).to_uppercase())
}

fn gate_lines() -> Vec<String> {
    let null = unhex("FC301100000000000000FFF0000000007A4FBFFF");
    let out = unhex("FC302500000000000000FFF01405000000017FEFFE2D142B00FE0123D3080001010100007F157A49");
    let of = |digits: &str| closed(unhex(digits));
    let back = of("FC301B00000000000000FFF00A05000000017F5F000101010000");
    let cancelled = of("FC301600000000000000FFF0050500000001FF0000");
    let mut lines: Vec<String> = [&null, &out, &back, &cancelled].map(|s| with(s)).to_vec();
    // any order, unknown ones between, the first of several cues, both kinds of 0x
    lines.push(format!("{HEAD}SCTE35-IN=0X{},X-A=\"a,b=c\",START-DATE=\"\",SCTE35-OUT=0x00,DURATION=1.5,ID=\"\"", hex(&out).to_uppercase()));
    // 53, each way
    lines.extend(["+a\"b", "+a\rb", "-2026\"", "-\r", "+as it is", "-any, text"].map(String::from));
    // 52
    let good = with(&null);
    lines.extend([
        String::new(),
        "#EXTM3U".into(),
        HEAD.into(),
        good[1..].into(),
        format!("{good},"),
        format!("{good},X="),
        format!("{good},X=1,X=2"),
        format!("{good},X=\"1"),
        format!("{good},x=1"),
        format!("{good}, X=1"),
        format!("{good},SCTE35-IN=0x"),
        format!("{good},SCTE35-IN=\"0x00\""),
        format!("{good}A"),
        format!("{good}a0"),
        good.replace("ID=\"1\"", "ID=1"),
        good.replace("0xFC", "FC"),
        // a fault behind what is missing is 52 too
        format!("{HEAD}X=1,X=1"),
    ]);
    // 51
    lines.extend([
        format!("{HEAD}X=0xZZ"),
        good.replace("ID=", "IDS="),
        good.replace("START-DATE=", "END-DATE="),
        good.replace("SCTE35-CMD", "SCTE35-CMDS"),
    ]);
    // a line that is read, and its section refused: 1 to 11; then 36, of the section and of the line
    for digits in ["FC30", "003000"] {
        lines.push(with(&unhex(digits)));
    }
    lines.push(with(&[vec![0xFC], vec![0; 4096]].concat()));
    lines.push(with(&unhex("FC301100000000000000FFF0000000007A4FBFFE")));
    for digits in [
        "FC3004",
        "FC301100800000000000FFF000000000",
        "FC301100000000000000FFF003000000",
        "FC300F00000000000000FFF00000",
        "FC301100000000000000FFF000000001",
        "FC301100000000000000FFF000010000",
        "FC301100000000000000FFF000060000",
    ] {
        lines.push(with(&of(digits)));
    }
    lines.push(with(&[0; 4201]));
    lines.push(with(&table(&mut Rng::new(9), 4200)[..20]));
    lines.push(with(&out));
    lines.push(format!("+{}", "x".repeat(9000)));
    lines
}

/// What crates/run_daterange prints of its lines: by the plain reader and writer, with its buffers of 4,200 and 8,300 bytes.
fn gate(folder: &str) {
    let lines = gate_lines();
    let mut told = vec![];
    let mut held = vec![];
    for (n, line) in lines.iter().map(String::as_bytes).enumerate() {
        let n = n + 1;
        let mut say = |words: Vec<u8>| told.extend([format!("{n} ").into_bytes(), words, b"\n".to_vec()].concat());
        let write = |section: &[u8], id: &[u8], date: &[u8]| match plain::write(section, id, date, 8300) {
            Ok(line) => [b"line ".to_vec(), line].concat(),
            Err(r) => format!("not written {r}").into_bytes(),
        };
        match line.first() {
            None => {}
            Some(b'+') => say(write(&held, &line[1..], b"2026-01-01T00:00:00Z")),
            Some(b'-') => say(write(&held, b"1", &line[1..])),
            Some(_) => match plain::read(line, 4200) {
                Err(r) => say(format!("refused {r}").into_bytes()),
                Ok(x) => {
                    let digits = hex(&x.section).to_lowercase();
                    say([x.name.as_bytes(), b" id ", &x.id, b" date ", &x.date, b" section ", digits.as_bytes()].concat());
                    say(write(&x.section, &x.id, &x.date));
                    held = x.section;
                }
            },
        }
    }
    let put = |name: &str, bytes: &[u8]| std::fs::write(format!("{folder}/{name}"), bytes).unwrap_or_else(|e| panic!("{folder}/{name}: {e}"));
    put("stdin", (lines.join("\n") + "\n").as_bytes());
    put("stdout", &told);
}

fn turn(what: &str, n: usize, times: u64) {
    let bytes = match what {
        "many" => 20,
        "behind" => 4000,
        _ => n,
    };
    let section = closed([unhex("FC301100000000000000FFF000000000"), vec![0; bytes.saturating_sub(20)]].concat());
    let mut line = scte35::write_daterange_to_vec(&section, b"a1", b"2026-01-01T00:00:00Z").expect("a null command with spare bytes");
    let others: Vec<String> = (0..n).map(|k| format!("{k:X}=1")).collect();
    match what {
        "many" => line = format!("{HEAD}{}", others.join(",")).into_bytes(),
        "behind" => others.iter().for_each(|x| line.extend([b",", x.as_bytes()].concat())),
        _ => {}
    }
    let mut target = vec![0; line.len()];
    for _ in 0..times {
        match what {
            "write" => drop(scte35::write_daterange(&section, b"a1", b"2026-01-01T00:00:00Z", &mut target)),
            "section" => drop(scte35::read_section(&section)),
            _ => drop(scte35::read_daterange(&line, &mut target)),
        }
    }
    println!("{} {}", section.len(), line.len());
}

fn main() {
    theirs::listen();
    let words: Vec<String> = std::env::args().skip(1).collect();
    let words: Vec<&str> = words.iter().map(String::as_str).collect();
    let number = |s: &str| s.parse::<u64>().unwrap_or_else(|_| panic!("{s}: no number"));
    match words[..] {
        ["real", file] => real(file),
        ["playlist", n, seed] => playlist(number(n) as usize, number(seed)),
        ["gate", folder] => gate(folder),
        ["turn", what, n, times] => turn(what, number(n) as usize, number(times)),
        [n, seed] => compare(number(n), number(seed)),
        _ => panic!("daterange N SEED | real FILE | playlist N SEED | gate FOLDER | turn read|write|section|behind|many N TIMES"),
    }
}
