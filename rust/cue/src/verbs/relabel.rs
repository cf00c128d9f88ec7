//! `cue relabel`: each cue with one identifier replaced, or with every identifier of a value, and every other one as it was.
use crate::console::{Console, REFUSED, WRONG};
use crate::input;
use crate::verbs::identifiers::line;
use crate::verbs::make::{print, To};
use clap::{Arg, ArgAction, ArgGroup, ArgMatches, Command};
use scte35::{Identifier, IdentifierKind, Refusal, SegmentationUpidType};
use std::io::{self, Write};

/// An identifier as the words give it: its type as it is written, and its bytes.
#[derive(Debug, Clone, PartialEq, Eq)]
struct Named {
    upid_type: u8,
    bytes: Vec<u8>,
}

/// What `--to` says: how a cue is printed, or, as TYPE:VALUE, the new identifier.
#[derive(Debug, Clone)]
enum ToWord {
    Form(To),
    New(Named),
}

/// Which identifiers are replaced.
enum Which {
    At { item: usize, part: usize },
    All(Named),
}

pub fn words(command: Command) -> Command {
    let number = |name: &'static str, value: &'static str, help: &'static str| {
        Arg::new(name).long(name).value_name(value).help(help).value_parser(clap::value_parser!(usize))
    };
    let flag = |name: &'static str, help: &'static str| Arg::new(name).long(name).help(help).action(ArgAction::SetTrue);
    input::words(command)
        .about("Replaces one identifier of each cue, or all of a value; every other one stays")
        .arg(
            number("item", "OFFSET", "The item's offset in its loop, as `cue show` says it").required_unless_present("all").conflicts_with("all"),
        )
        .arg(
            number("part", "N", "Which identifier: 0 (or left out) the UPID itself, n the n-th part of its MID, at any level").conflicts_with("all"),
        )
        .arg(
            Arg::new("upid-type")
                .long("upid-type")
                .value_name("T")
                .help("The new identifier's type, as it is written")
                .value_parser(clap::value_parser!(u8))
                .required_unless_present("all")
                .conflicts_with("all"),
        )
        .arg(Arg::new("text").long("text").value_name("S").help("The new identifier, as text"))
        .arg(Arg::new("hex").long("hex").value_name("H").help("The new identifier, as hexadecimal digits"))
        .group(ArgGroup::new("new").args(["text", "hex", "all"]).required(true))
        .arg(flag("all", "Replaces every UPID and every part of a MID that is --from, by --to").requires("from").requires("to"))
        .arg(Arg::new("from").long("from").value_name("TYPE:VALUE").help("What is replaced").value_parser(named).requires("all"))
        .arg(
            Arg::new("to")
                .long("to")
                .value_name("FORM|TYPE:VALUE")
                .help("How the cue is printed: hex, base64 (where it is left out) or raw; with --all also what is put there")
                .value_parser(to_word)
                .action(ArgAction::Append),
        )
        .arg(flag("check", "Reads each result again, and lists its identifiers: kept, replaced, around a replaced one"))
        .arg(flag("plain", "Prints the new cues alone, as the next program takes them"))
        .after_help(
            "Every length around the identifier and the CRC are mended; no other byte is changed. A TYPE is the number\n\
             as it is written (an ISAN of 8 bytes is 5), a VALUE is text, or hexadecimal digits behind 0x.\n\n\
             With --all each cue is printed before and after, or as unchanged; a cue in which one can't be replaced is\n\
             not printed, and said. --check prints behind a cue a line for each identifier, as `cue identifiers` does;\n\
             where one differs that should not, the cue is not printed and the exit status is 1.\n\n\
             Examples:\n  \
             cue relabel --item 0 --part 1 --upid-type 8 --hex 8877665544332211 /DA/AAAAAAAA///wBQb+AAAAAAApAidDVUVJAAAAKn+/DRgICBEiM0RVZneIAwxBQkNEMTIzNDU2NzgQAQGoahe8\n  \
             cue relabel --all --from 8:0x1122334455667788 --to 3:NEWS00000001 --check /DA/AAAAAAAA///wBQb+AAAAAAApAidDVUVJAAAAKn+/DRgICBEiM0RVZneIAwxBQkNEMTIzNDU2NzgQAQGoahe8",
        )
}

/// TYPE:VALUE
fn named(word: &str) -> Result<Named, String> {
    let (upid_type, value) = word.split_once(':').ok_or("no TYPE:VALUE")?;
    let upid_type = upid_type.parse().map_err(|_| "TYPE is no number below 256")?;
    let bytes = match value.strip_prefix("0x") {
        Some(digits) => hex::decode(digits).map_err(|fault| format!("VALUE: {fault}"))?,
        None => value.as_bytes().to_vec(),
    };
    Ok(Named { upid_type, bytes })
}

fn to_word(word: &str) -> Result<ToWord, String> {
    match word {
        "hex" => Ok(ToWord::Form(To::Hex)),
        "base64" => Ok(ToWord::Form(To::Base64)),
        "raw" => Ok(ToWord::Form(To::Raw)),
        _ => named(word).map(ToWord::New).map_err(|fault| format!("neither hex, base64, raw nor TYPE:VALUE: {fault}")),
    }
}

/// The identifiers that are replaced, and the new one; or what is wrong with the words.
fn asked(words: &ArgMatches) -> Result<(Which, Named), String> {
    let given: Vec<&Named> =
        words.get_many("to").into_iter().flatten().filter_map(|to| if let ToWord::New(new) = to { Some(new) } else { None }).collect();
    if let Some(from) = words.get_one::<Named>("from") {
        return match given[..] {
            [new] => Ok((Which::All(from.clone()), new.clone())),
            _ => Err("--all wants one --to TYPE:VALUE".into()),
        };
    }
    if !given.is_empty() {
        return Err("--to TYPE:VALUE goes with --all".into());
    }
    let bytes = match (words.get_one::<String>("text"), words.get_one::<String>("hex")) {
        (Some(text), _) => text.as_bytes().to_vec(),
        (None, digits) => hex::decode(digits.map_or("", |digits| digits)).map_err(|fault| format!("--hex: {fault}"))?,
    };
    let number = |name| words.get_one::<usize>(name).copied().unwrap_or(0);
    let upid_type = words.get_one::<u8>("upid-type").copied().unwrap_or(0);
    Ok((Which::At { item: number("item"), part: number("part") }, Named { upid_type, bytes }))
}

pub fn run(words: &ArgMatches, console: &mut Console) -> io::Result<()> {
    let (which, new) = match asked(words) {
        Ok(asked) => asked,
        Err(fault) => {
            console.say(WRONG, fault);
            return Ok(());
        }
    };
    let mut forms = words.get_many("to").into_iter().flatten().filter_map(|to| if let ToWord::Form(form) = to { Some(*form) } else { None });
    let to = forms.next_back().unwrap_or(To::Base64);
    let plain = words.get_flag("plain") || to == To::Raw;
    input::each(words, console, |console, cue| {
        let bytes = relabelled(cue.bytes, &which, &new);
        let list = match &bytes {
            Ok(bytes) if words.get_flag("check") => checked(cue.bytes, bytes, &which, &new),
            _ => Ok(vec![]),
        };
        let (bytes, list) = match (&bytes, &list) {
            (Ok(bytes), Ok(list)) => (bytes, list),
            (Err(fault), _) | (_, Err(fault)) => {
                console.complain(REFUSED, cue.number, fault);
                return Ok(());
            }
        };
        if plain || !words.get_flag("all") {
            print(console, to, bytes)?;
        } else {
            before_and_after(console, cue.number, to, cue.bytes, bytes)?;
        }
        for (word, item, x) in list.iter().filter(|_| !plain) {
            write!(console.out, "{word} ")?;
            line(console, cue.number, item, x)?;
        }
        Ok(())
    })
}

fn before_and_after(console: &mut Console, number: u64, to: To, old: &[u8], then: &[u8]) -> io::Result<()> {
    let mut one = |word, bytes| {
        write!(console.out, "cue {number}: {word} ")?;
        print(console, to, bytes)
    };
    if old == then {
        return one("unchanged", old);
    }
    one("before", old)?;
    one("after", then)
}

impl Which {
    /// Is it one that is replaced?
    fn names(&self, x: &Identifier<'_>) -> bool {
        matches!(x.kind, IdentifierKind::Upid | IdentifierKind::Part)
            && match self {
                Which::At { item, part } => x.item == Some(*item) && x.part == *part,
                Which::All(from) => from.is(x),
            }
    }
}

impl Named {
    fn is(&self, x: &Identifier<'_>) -> bool {
        x.written_type().map(SegmentationUpidType::id) == Some(self.upid_type) && x.bytes == self.bytes
    }
}

/// The cue with these replaced, one after the other; lengths and places move, so that each result is read again.
fn relabelled(old: &[u8], which: &Which, new: &Named) -> Result<Vec<u8>, String> {
    let refused = |refusal: Refusal| format!("refused: {refusal}");
    let put = |bytes: &[u8], item, part| scte35::relabel_to_vec(bytes, item, part, SegmentationUpidType::from_type(new.upid_type), &new.bytes);
    let from = match which {
        Which::At { item, part } => return put(old, *item, *part).map_err(refused),
        Which::All(from) => from,
    };
    let (mut bytes, mut behind, mut count) = (old.to_vec(), 0, 0);
    loop {
        let section = scte35::read_section(&bytes).map_err(refused)?;
        let next = section.identifiers().find(|x| x.at > behind && which.names(x)).and_then(|x| x.item.map(|item| (x, item)));
        let Some((x, item)) = next else { return Ok(bytes) };
        // its place in the cue that came in
        let at = x.at + count * from.bytes.len() - count * new.bytes.len();
        let then = put(&bytes, item, x.part).map_err(|refusal| format!("the identifier at byte {at}, part {}: refused: {refusal}", x.part))?;
        // what the new one holds is not looked at
        behind = x.at + new.bytes.len();
        count += 1;
        bytes = then;
    }
}

/// A word, the item, and the identifier.
type Line<'a> = (&'static str, String, Identifier<'a>);

/// A second reading: every identifier of the cue stands in the result, in its order, and is the same or replaced. What it says of each; or what differs.
fn checked<'a>(old: &'a [u8], then: &'a [u8], which: &Which, new: &Named) -> Result<Vec<Line<'a>>, String> {
    let (all, result) = (listed(old)?, listed(then)?);
    let replaced: Vec<usize> = all.iter().filter(|(_, x)| which.names(x)).map(|(_, x)| x.at).collect();
    let (mut before, mut after) = (all.into_iter().peekable(), result.into_iter().peekable());
    let mut lines = vec![];
    while let Some((item, x)) = before.next() {
        let differs = |why: &str| format!("not as it was: the identifier at byte {}: {why}", x.at);
        let (there, y) = after.next().ok_or_else(|| differs("missing from the result"))?;
        if (there != item, x.kind, x.level) != (false, y.kind, y.level) {
            return Err(differs("moved to another place"));
        }
        let around = replaced.iter().any(|at| (x.at + 1..=x.at + x.len()).contains(at));
        match which.names(&x) {
            true if new.is(&y) => {
                // the parts of either are its own
                while before.next_if(|(_, part)| part.at <= x.at + x.len()).is_some() {}
                while after.next_if(|(_, part)| part.at <= y.at + y.len()).is_some() {}
                lines.extend([("replaced", item, x), ("by", there, y)]);
            }
            true => return Err(differs("not replaced by the new one")),
            false if x.upid_type != y.upid_type => return Err(differs("of another type")),
            false if around => lines.push(("around", there, y)),
            false if x.bytes != y.bytes => return Err(differs("of other bytes")),
            false => lines.push(("kept", there, y)),
        }
    }
    match after.next() {
        Some((_, y)) => Err(format!("not as it was: an identifier that was not there, at byte {} of the result", y.at)),
        None => Ok(lines),
    }
}

/// Every identifier of a section, with its item, counted from 1, or `command`.
fn listed(bytes: &[u8]) -> Result<Vec<(String, Identifier<'_>)>, String> {
    let section = scte35::read_section(bytes).map_err(|refusal| format!("refused: {refusal}"))?;
    let offsets: Vec<usize> = section.descriptors.iter().map(|item| item.offset).collect();
    let number = |x: &Identifier<'_>| x.item.and_then(|offset| offsets.binary_search(&offset).ok()).map_or("command".into(), |n| (n + 1).to_string());
    let all = section.identifiers().map(|x| (number(&x), x)).collect();
    Ok(all)
}

#[cfg(test)]
mod tests {
    use crate::verbs::tests::*;

    fn relabelled(words: &[&str], digits: &str) -> String {
        let all: Vec<&str> = ["relabel", "--to", "hex", "--as", "hex"].into_iter().chain(words.iter().copied()).chain([digits]).collect();
        stdout(&all).trim().to_uppercase()
    }

    // the incident's cue: the eight-byte part becomes twelve bytes long, and the other part's twelve bytes are untouched
    #[test]
    fn eight_becomes_twelve() {
        let old = INCIDENT.replace(' ', "");
        let new = relabelled(&["--item", "0", "--part", "1", "--upid-type", "3", "--text", "NEWS00000001"], &old);
        let expected = with_crc(
            "FC3043000000000000FFFFF00506FE00000000002D022B435545490000002A7FBF0D1C030C4E4557533030303030303031030C414243443132333435363738100101",
        );
        assert_eq!(new, expected);
        // and back
        assert_eq!(relabelled(&["--item", "0", "--part", "1", "--upid-type", "8", "--hex", "1122334455667788"], &new), old);
    }

    /// Two items: a MID that holds the identifier twice, once in a MID inside it; and the identifier as a UPID itself. Then one that is longer by a byte.
    fn thrice() -> String {
        let mid = "0D1A 0D0A 08081122334455667788 030C414243443132333435363738";
        let all = [with_upid(mid), "010743554549B13F34".into(), with_upid("08081122334455667788"), with_upid("0909112233445566778899")];
        around(&all.concat())
    }

    const FROM: [&str; 6] = ["relabel", "--all", "--from", "8:0x1122334455667788", "--as", "hex"];

    fn all(words: &[&str]) -> Vec<&'static str> {
        FROM.into_iter().chain(words.iter().map(|word| &*Box::leak(word.to_string().into_boxed_str()))).collect()
    }

    #[test]
    fn every_one_of_a_value() {
        let old = thrice();
        let mid = "0D1E 0D0E 030C4E4557533030303030303031 030C414243443132333435363738";
        let then = around(
            &[with_upid(mid), "010743554549B13F34".into(), with_upid("030C4E4557533030303030303031"), with_upid("0909112233445566778899")].concat(),
        );
        let words = ["--to", "3:NEWS00000001", "--to", "hex"];
        let printed = stdout(&all(&[&words[..], &[&old, NULL]].concat()));
        assert_eq!(printed, format!("cue 1: before {old}\ncue 1: after {then}\ncue 2: unchanged {NULL}\n"));
        assert_eq!(stdout(&all(&[&words[..], &["--plain", &old, NULL]].concat())), format!("{then}\n{NULL}\n"));
        // and back
        let back = ["relabel", "--all", "--from", "3:NEWS00000001", "--to", "8:0x1122334455667788", "--to", "hex", "--plain", &then];
        assert_eq!(stdout(&back), format!("{old}\n"));
        // nothing is looked for inside what was put there
        let inside = stdout(&all(&["--to", "13:0x08081122334455667788", "--to", "hex", "--plain", &with_incident("08081122334455667788")]));
        assert_eq!(inside, format!("{}\n", with_incident("0D0A08081122334455667788")));
    }

    fn with_incident(upid: &str) -> String {
        around(&with_upid(upid))
    }

    #[test]
    fn what_was_kept() {
        let expected = "around 1 1 0 13 13 31 30 0D0E030C4E4557533030303030303031030C414243443132333435363738
around 1 1 1 13 13 33 14 030C4E4557533030303030303031
replaced 1 1 2 8 8 35 8 1122334455667788
by 1 1 2 3 3 35 12 4E4557533030303030303031 \"NEWS00000001\"
kept 1 1 1 3 3 49 12 414243443132333435363738 \"ABCD12345678\"
kept 1 2 0 DTMF_char - 72 1 34 \"4\"
replaced 1 3 0 8 8 83 8 1122334455667788
by 1 3 0 3 3 87 12 4E4557533030303030303031 \"NEWS00000001\"
kept 1 4 0 9 9 116 9 112233445566778899
";
        let printed = stdout(&all(&["--to", "3:NEWS00000001", "--check", &thrice()]));
        let (_, list) = printed.split_once("after").unwrap();
        assert_eq!(list.split_once('\n').unwrap().1, expected);
        let one = stdout(&["relabel", "--item", "0", "--part", "1", "--upid-type", "9", "--text", "x", "--check", INCIDENT]);
        let words: Vec<&str> = one.lines().skip(1).map(|line| line.split(' ').next().unwrap()).collect();
        assert_eq!(words, ["around", "replaced", "by", "kept"]);
        assert_eq!(stdout(&all(&["--to", "3:NEWS00000001", "--to", "hex", "--check", "--plain", NULL])), format!("{NULL}\n"));
    }

    /// The incident over again, one layer up, is seen: the head of an outer MID that was not mended, another part that was changed, cut or left out.
    #[test]
    fn what_was_not_kept() {
        let (from, new) = (super::named("8:0x1122334455667788").unwrap(), super::named("3:NEWS00000001").unwrap());
        let which = super::Which::All(from);
        let check = |then: &str| {
            let (old, then) = (
                hex::decode(with_incident("0D18 08081122334455667788 030C414243443132333435363738")).unwrap(),
                hex::decode(with_incident(then)).unwrap(),
            );
            super::checked(&old, &then, &which, &new).map(|lines| lines.len())
        };
        let put = "030C4E4557533030303030303031";
        assert_eq!(check(&format!("0D1C {put} 030C414243443132333435363738")), Ok(4));
        for (then, why) in [
            (format!("0D1C {put} 030C414243443132333435363739"), "of other bytes"),
            (format!("0D1C {put} 090C414243443132333435363738"), "of another type"),
            (format!("0D0E {put}"), "missing from the result"),
            (format!("0D1E {put} 0D0E030C414243443132333435363738"), "of another type"),
            (format!("0D1E 0D0E {put} 030C414243443132333435363738"), "not replaced by the new one"),
            (format!("0D1E {put} 030C414243443132333435363738 0900"), "that was not there"),
            ("0D18 08081122334455667788 030C414243443132333435363738".into(), "not replaced by the new one"),
        ] {
            assert!(check(&then).unwrap_err().contains(why), "{then}: {:?}", check(&then));
        }
    }

    #[test]
    fn one_that_cannot_be_replaced() {
        // of the third cue's two the second: the descriptor would be too long; its place is that in the cue that came in
        let full = with_incident(&format!("0DE8 09D2{} 08081122334455667788 08081122334455667788", "41".repeat(210)));
        let words = all(&["--to", "3:NEWS00000001", "--to", "hex", "--plain", NULL, "FC30", &full, NULL]);
        let output = cue(&words).output().unwrap();
        assert_eq!(output.status.code(), Some(1));
        let said = String::from_utf8(output.stderr).unwrap();
        let (first, second) = said.split_once('\n').unwrap();
        assert_eq!(first, "cue 2: refused: section under 3 bytes (refusal 1)");
        assert!(second.starts_with("cue 3: the identifier at byte 255, part 3: refused: ") && second.ends_with("(refusal 34)\n"), "{second}");
        assert_eq!(String::from_utf8(output.stdout).unwrap(), format!("{NULL}\n{NULL}\n"));
    }

    #[test]
    fn wrong_words() {
        for words in [
            vec!["relabel", NULL],
            vec!["relabel", "--all", NULL],
            vec!["relabel", "--all", "--from", "8:x", NULL],
            vec!["relabel", "--all", "--from", "8:x", "--to", "hex", NULL],
            vec!["relabel", "--all", "--from", "8:x", "--to", "3:x", "--to", "3:y", NULL],
            vec!["relabel", "--all", "--from", "8", "--to", "3:x", NULL],
            vec!["relabel", "--all", "--from", "256:x", "--to", "3:x", NULL],
            vec!["relabel", "--all", "--from", "8:0x1", "--to", "3:x", NULL],
            vec!["relabel", "--all", "--from", "8:x", "--to", "3:x", "--item", "0", NULL],
            vec!["relabel", "--item", "0", "--upid-type", "9", "--text", "x", "--to", "3:x", NULL],
            vec!["relabel", "--item", "0", "--upid-type", "9", "--hex", "x", NULL],
        ] {
            assert!(!stderr(&words, 2).is_empty());
        }
    }

    #[test]
    fn refused() {
        let cue = INCIDENT.replace(' ', "");
        for (number, words) in [
            (41, vec!["--item", "1", "--part", "1", "--upid-type", "8", "--hex", "1122334455667788"]),
            (41, vec!["--item", "0", "--part", "3", "--upid-type", "8", "--hex", "1122334455667788"]),
            (33, vec!["--item", "0", "--part", "1", "--upid-type", "3", "--text", "short"]),
            (33, vec!["--item", "0", "--upid-type", "9", "--text", ""]),
        ] {
            let all: Vec<&str> = ["relabel", "--as", "hex"].into_iter().chain(words).chain([cue.as_str()]).collect();
            assert!(stderr(&all, 1).ends_with(&format!("(refusal {number})\n")), "{all:?}");
        }
        for (number, digits) in refused_sections() {
            assert!(stderr(&["relabel", "--item", "0", "--upid-type", "9", "--text", "x", "--as", "hex", &digits], 1)
                .ends_with(&format!("(refusal {number})\n")));
        }
    }
}
