//! `cue map`: a section's bytes, each with the field that it belongs to; each identifier one coloured run. On the terminal, or as a page.
use crate::console::{Console, REFUSED, WRONG};
use crate::input;
use crate::layout::{self, Kind, Row};
use clap::{Arg, ArgMatches, Command};
use std::ffi::OsString;
use std::fmt::Write as _;
use std::io::{self, Write};
use termcolor::{Ansi, Color, ColorSpec, NoColor, WriteColor};

pub fn words(command: Command) -> Command {
    input::words(command)
        .about("Shows where each field and each identifier lies in a cue's bytes")
        .arg(
            Arg::new("html")
                .long("html")
                .value_name("FILE")
                .value_parser(clap::value_parser!(OsString))
                .help("Writes the map as a page that stands alone, to be sent to a station; - for standard output"),
        )
        .after_help(
            "Examples:\n  cue map FC302700000000000000FFF00506FF592D03C00011020F43554549000000017FBF000010010112CE0E6B\n  \
             cue map --html - FC301100000000000000FFF0000000007A4FBFFF",
        )
}

pub fn run(words: &ArgMatches, console: &mut Console) -> io::Result<()> {
    let file = words.get_one::<OsString>("html");
    let mut page = String::new();
    input::each(words, console, |console, cue| {
        match scte35::read_section(cue.bytes) {
            Err(refusal) => console.complain(REFUSED, cue.number, format_args!("refused: {refusal}")),
            Ok(section) => {
                let rows = layout::rows(cue.bytes, &section);
                match file {
                    Some(_) => cue_as_page(&mut page, cue.number, cue.bytes, &rows),
                    None if console.colour => dump(&mut Ansi::new(&mut console.out), cue.bytes, &rows)?,
                    None => dump(&mut NoColor::new(&mut console.out), cue.bytes, &rows)?,
                }
            }
        }
        Ok(())
    })?;
    let Some(file) = file else { return Ok(()) };
    let page = format!("{HEAD}{page}</body></html>\n");
    if file == "-" {
        return console.out.write_all(page.as_bytes());
    }
    if let Err(why) = std::fs::write(file, page) {
        console.say(WRONG, format_args!("{}: {why}", file.to_string_lossy()));
    }
    Ok(())
}

/// How many bytes stand on a line.
const WIDTH: usize = 16;

// ---- on the terminal

/// Neighbours differ.
const COLOURS: [Color; 5] = [Color::Cyan, Color::Yellow, Color::Green, Color::Magenta, Color::Blue];

fn colour(kind: Kind) -> ColorSpec {
    let mut spec = ColorSpec::new();
    match kind {
        Kind::Field => {}
        Kind::Identifier(n) => {
            spec.set_fg(Some(Color::Black)).set_bg(Some(COLOURS[n % COLOURS.len()]));
        }
        Kind::Spare => {
            spec.set_dimmed(true);
        }
        Kind::Refused => {
            spec.set_fg(Some(Color::Red));
        }
    }
    spec
}

fn dump(out: &mut impl WriteColor, bytes: &[u8], rows: &[Row]) -> io::Result<()> {
    for row in rows {
        let lead = "  ".repeat(row.depth);
        let label = &row.label;
        if row.len == 0 {
            out.set_color(ColorSpec::new().set_bold(true))?;
            write!(out, "{:53}{lead}{label}", "")?;
            out.reset()?;
            writeln!(out)?;
            continue;
        }
        for (k, chunk) in layout::part(bytes, row.at, row.len).chunks(WIDTH).enumerate() {
            write!(out, "{:4} ", row.at + k * WIDTH)?;
            out.set_color(&colour(row.kind))?;
            let digits: Vec<String> = chunk.iter().map(|b| format!("{b:02X}")).collect();
            write!(out, "{}", digits.join(" "))?;
            out.reset()?;
            match k {
                0 => writeln!(out, "{:pad$}{lead}{label}", "", pad = 49 - 3 * chunk.len())?,
                _ => writeln!(out)?,
            }
        }
    }
    Ok(())
}

// ---- as a page

const HEAD: &str = "<!DOCTYPE html>
<html lang=\"en\"><head><meta charset=\"utf-8\"><title>A cue's bytes</title>
<style>
body { font: 15px/1.45 system-ui, sans-serif; margin: 1.5em; color: #1b1b1b; background: #fff; }
h1 { font-size: 1.15em; margin: 0 0 .6em; }
code, .dump, td:nth-child(-n+2) { font-family: ui-monospace, Consolas, 'DejaVu Sans Mono', monospace; }
.dump { border-collapse: collapse; margin-bottom: 1em; }
.dump td { padding: .12em .3em; text-align: center; }
.dump th { padding: 0 .8em 0 0; text-align: right; color: #6b6b6b; font-weight: normal; }
.fields { border-collapse: collapse; }
.fields td { padding: .1em .9em .1em 0; vertical-align: top; }
.fields td:nth-child(-n+2) { white-space: nowrap; }
.fields td:first-child { color: #6b6b6b; text-align: right; }
.fields .head td { padding-top: .5em; font-weight: 600; }
.fields span { padding: .1em .35em; border-radius: .25em; }
.i0 { background: #9fd8e8; } .i1 { background: #ffd970; } .i2 { background: #a9dd9c; } .i3 { background: #e9b5e6; } .i4 { background: #b9c4f5; }
.spare { color: #8a8a8a; } .refused { color: #b00020; }
</style></head><body>
";

fn class(kind: Kind) -> String {
    match kind {
        Kind::Field => String::new(),
        Kind::Identifier(n) => format!("i{}", n % COLOURS.len()),
        Kind::Spare => "spare".into(),
        Kind::Refused => "refused".into(),
    }
}

fn escaped(text: &str) -> String {
    text.replace('&', "&amp;").replace('<', "&lt;").replace('>', "&gt;").replace('"', "&quot;")
}

fn cue_as_page(page: &mut String, number: u64, bytes: &[u8], rows: &[Row]) {
    let identifiers = rows.iter().filter(|row| matches!(row.kind, Kind::Identifier(_))).count();
    let _ = writeln!(page, "<h1>Cue {number}: {} bytes, {identifiers} identifiers, each one coloured run</h1>", bytes.len());
    bytes_as_page(page, bytes, rows);
    page.push_str("<table class=\"fields\">\n");
    for row in rows {
        let label = escaped(&row.label);
        let lead = format!("padding-left:{}em", row.depth);
        if row.len == 0 {
            let _ = writeln!(page, "<tr class=\"head\"><td><td><td style=\"{lead}\">{label}</tr>");
            continue;
        }
        let digits: Vec<String> = layout::part(bytes, row.at, row.len).iter().map(|b| format!("{b:02X}")).collect();
        // a line for each sixteen bytes, as in the dump
        let digits: Vec<String> = digits.chunks(WIDTH).map(|line| line.join(" ")).collect();
        let class = class(row.kind);
        let _ = writeln!(page, "<tr><td>{}<td><span class=\"{class}\">{}</span><td style=\"{lead}\">{label}</tr>", row.at, digits.join("<br>"));
    }
    page.push_str("</table>\n");
}

fn bytes_as_page(page: &mut String, bytes: &[u8], rows: &[Row]) {
    page.push_str("<table class=\"dump\">\n");
    let mut left = rows.iter().filter(|row| row.len > 0).flat_map(|row| (0..row.len).map(move |_| row));
    for (k, line) in bytes.chunks(WIDTH).enumerate() {
        let _ = write!(page, "<tr><th>{}", k * WIDTH);
        for byte in line {
            let (class, name) = left.next().map_or((String::new(), ""), |row| (class(row.kind), row.name.as_str()));
            let _ = write!(page, "<td class=\"{class}\" title=\"{}\">{byte:02X}", escaped(name));
        }
        page.push_str("</tr>\n");
    }
    page.push_str("</table>\n");
}

#[cfg(test)]
mod tests {
    use crate::verbs::tests::{around, cue, stdout, with_upid, INCIDENT};

    #[test]
    fn the_incident() {
        let shown = stdout(&["map", INCIDENT]);
        let lines: Vec<&str> = shown.lines().collect();
        assert_eq!(lines.len(), 30);
        assert!(lines[22].starts_with("  37 11 22 33 44 55 66 77 88      "), "{}", lines[22]);
        assert!(lines[25].ends_with("      segmentation_upid \"ABCD12345678\""), "{}", lines[25]);
        assert!(!shown.contains('\x1b'));
    }

    #[test]
    fn an_identifier_is_one_coloured_run() {
        let shown = stdout(&["map", "--color", "always", INCIDENT]);
        for run in ["11 22 33 44 55 66 77 88", "41 42 43 44 31 32 33 34 35 36 37 38"] {
            let (before, after) = shown.split_once(run).expect("unbroken");
            assert!(before.ends_with('m') && after.starts_with("\x1b[0m"));
        }
    }

    #[test]
    fn a_page_stands_alone() {
        let page = stdout(&["map", "--html", "-", INCIDENT]);
        assert!(page.starts_with("<!DOCTYPE html>") && page.ends_with("</html>\n"));
        for foreign in ["http:", "https:", "<script", "<link", "src=", "url("] {
            assert!(!page.contains(foreign), "{foreign}");
        }
        // eight bytes of the first identifier and twelve of the second, in the dump
        assert_eq!(page.matches("<td class=\"i0\"").count(), 8);
        assert_eq!(page.matches("<td class=\"i1\"").count(), 12);
        assert!(page.contains("<span class=\"i0\">11 22 33 44 55 66 77 88</span>"));
    }

    #[test]
    fn a_page_is_written_to_a_file() {
        let file = std::env::temp_dir().join(format!("cue-map-{}.html", std::process::id()));
        cue(&["map", "--html", file.to_str().unwrap(), INCIDENT]).assert().success().stdout("");
        assert!(std::fs::read_to_string(&file).unwrap().contains("ABCD12345678"));
        std::fs::remove_file(file).unwrap();
        cue(&["map", "--html", "/nowhere/at/all", INCIDENT]).assert().code(2);
    }

    #[test]
    fn text_of_a_cue_is_no_markup() {
        // an Ad-ID of twelve characters: <b>&"x"</b>!
        let page = stdout(&["map", "--html", "-", &around(&with_upid("030C 3C623E262278223C2F623E21"))]);
        assert!(page.contains("&lt;b&gt;&amp;") && !page.contains("<b>"), "{page}");
    }

    #[test]
    fn refused() {
        cue(&["map", "FC3011"]).assert().code(1).stdout("");
    }
}
