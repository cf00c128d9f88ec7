//! How `cue` behaves, whatever the verb: forms of input, exit status, messages, closed pipes, help.
#[allow(dead_code)]
#[path = "../src/verbs/tests.rs"]
mod verbs;

use std::fs;
use std::io::{BufRead, BufReader, Read, Write};
use std::os::unix::fs::PermissionsExt;
use std::path::PathBuf;
use std::process::{Command, Stdio};
use verbs::{cue, stderr, stdout, INCIDENT, NULL};

const VERBS: [&str; 8] = ["show", "identifiers", "map", "check", "make", "adjust", "relabel", "completions"];

/// A folder of its own for a test, with a `cue` in it that a shell can start.
fn folder(name: &str) -> PathBuf {
    let folder = std::env::temp_dir().join(format!("cue-{name}-{}", std::process::id()));
    fs::create_dir_all(&folder).unwrap();
    let program = assert_cmd::cargo::cargo_bin("cue");
    let runner = std::env::var("CARGO_TARGET_X86_64_UNKNOWN_LINUX_GNU_RUNNER").unwrap_or_default();
    let script = folder.join("cue");
    fs::write(&script, format!("#!/bin/sh\nexec {runner} {} \"$@\"\n", program.display())).unwrap();
    fs::set_permissions(&script, fs::Permissions::from_mode(0o755)).unwrap();
    folder
}

/// What a shell prints, says, and the status.
fn shell(folder: &std::path::Path, line: &str) -> (String, String, i32) {
    let path = format!("{}:/usr/bin:/bin", folder.display());
    let output = Command::new("/bin/bash").args(["-c", line]).current_dir(folder).env("PATH", path).env_remove("NO_COLOR").output().unwrap();
    let text = |bytes| String::from_utf8_lossy(bytes).into_owned();
    (text(&output.stdout), text(&output.stderr), output.status.code().unwrap_or(-1))
}

#[test]
fn every_form_of_input() {
    let folder = folder("forms");
    let bytes = hex::decode(INCIDENT).unwrap();
    let colons = bytes.iter().map(|b| format!("{b:02x}")).collect::<Vec<_>>();
    let base64 = base64::encode(&bytes);
    let url = base64::encode_config(&bytes, base64::URL_SAFE_NO_PAD);
    fs::write(folder.join("text"), format!("\n{INCIDENT}\r\n\n")).unwrap();
    fs::write(folder.join("raw"), &bytes).unwrap();
    let expected = stdout(&["show", INCIDENT]);
    let (text, raw) = (format!("@{}", folder.join("text").display()), format!("@{}", folder.join("raw").display()));
    let forms: Vec<Vec<&str>> = vec![
        vec!["show", &text],
        vec!["show", &raw],
        vec!["show", "--as", "raw", &raw],
        vec!["show", "--as", "base64", &base64],
        vec!["show", "--as", "hex", INCIDENT],
        vec!["show", &base64],
        vec!["show", base64.trim_end_matches('=')],
        vec!["show", &url],
    ];
    for words in forms {
        assert_eq!(stdout(&words), expected, "{words:?}");
    }
    for text in [colons.join(":"), colons.join(" "), colons.concat(), format!("0x{}", colons.concat())] {
        assert_eq!(stdout(&["show", &text]), expected, "{text}");
        cue(&["show", "-"]).write_stdin(format!("{text}\n")).assert().success().stdout(expected.clone());
    }
    cue(&["show", "-"]).write_stdin(bytes).assert().success().stdout(expected);
    fs::remove_dir_all(folder).unwrap();
}

#[test]
fn a_form_that_does_not_fit_is_said() {
    assert_eq!(stderr(&["show", "--as", "hex", "/DAR"], 2), "cue 1: not hexadecimal: '/' as its character 1\n");
    assert_eq!(stderr(&["show", "FC301"], 2), "cue 1: not hexadecimal: an odd number of digits, 5\n");
    assert_eq!(stderr(&["show", "hello there"], 2), "cue 1: neither hexadecimal nor base64\n");
    assert!(stderr(&["show", "@/nowhere/at/all"], 2).starts_with("/nowhere/at/all: "));
    assert!(stderr(&["show", "@/"], 2).starts_with("/: a folder"));
}

/// The number in the input is said, the others are shown, and the status is the largest.
#[test]
fn each_cue_has_its_number() {
    let output = cue(&["show", "-"]).write_stdin(format!("{NULL}\n\nxyz!\n{NULL}\nFC30\n{INCIDENT}\n")).output().unwrap();
    let said = String::from_utf8(output.stderr).unwrap();
    assert_eq!(said, "cue 2: neither hexadecimal nor base64\ncue 4: refused: section under 3 bytes (refusal 1)\n");
    let shown = String::from_utf8(output.stdout).unwrap();
    let cues: Vec<_> = shown.lines().filter(|line| line.starts_with("cue ")).collect();
    assert_eq!(cues.len(), 3);
    assert!(cues[2].starts_with("cue 5: "));
    assert_eq!(output.status.code(), Some(2));
    for (words, status) in
        [(vec!["check", NULL], 0), (vec!["check", NULL, "FC30"], 1), (vec!["check", NULL, "FC30", "?"], 2), (vec!["check", "?", "FC30"], 2)]
    {
        cue(&words).assert().code(status);
    }
}

#[test]
fn wrong_words() {
    for words in [
        vec![],
        vec!["shoe"],
        vec!["show"],
        vec!["show", "--as", "x", NULL],
        vec!["show", "--what", NULL],
        vec!["make", "--to", "x"],
        vec!["show", "--color", "x", NULL],
    ] {
        let output = cue(&words).output().unwrap();
        assert_eq!(output.status.code(), Some(2), "{words:?}");
        assert!(output.stdout.is_empty() && !output.stderr.is_empty(), "{words:?}");
    }
    // words that are no text
    use std::os::unix::ffi::OsStringExt;
    for word in [b"\xff\xfe".to_vec(), b"@\xff".to_vec(), b"FC\xff".to_vec()] {
        cue(&["show"]).arg(std::ffi::OsString::from_vec(word)).assert().code(2);
    }
}

#[test]
fn a_closed_pipe_ends_it_quietly() {
    let folder = folder("pipe");
    fs::write(folder.join("cues"), format!("{INCIDENT}\n").repeat(20_000)).unwrap();
    for verb in ["show", "show --json", "identifiers", "map", "check"] {
        let (printed, said, _) = shell(&folder, &format!("cue {verb} @cues | head -n 1; exit ${{PIPESTATUS[0]}}"));
        assert_eq!((printed.lines().count(), said.as_str()), (1, ""), "{verb}");
    }
    let (_, said, status) = shell(&folder, "cue show @cues >/dev/full");
    assert!(status == 2 && said.starts_with("cue: "), "{status} {said}");
    // closed altogether
    let (_, said, _) = shell(&folder, "cue show FC30 2>&-; cue show FC30 >&-; cue --help >&-; cue show @cues >&- 2>&-");
    assert!(!said.contains("panic"), "{said}");
    fs::remove_dir_all(folder).unwrap();
}

/// Colour on a terminal alone, and not where NO_COLOR or --color says no. (`script` is the terminal.)
#[test]
fn colours() {
    let folder = folder("colours");
    let terminal = |line: &str| shell(&folder, &format!("TERM=xterm script -qec '{line}' /dev/null </dev/null")).0.contains("\x1b[");
    for verb in ["show", "map"] {
        assert!(terminal(&format!("cue {verb} {INCIDENT}")), "{verb}");
        assert!(!terminal(&format!("NO_COLOR=1 cue {verb} {INCIDENT}")), "{verb}");
        assert!(!terminal(&format!("cue --color never {verb} {INCIDENT}")), "{verb}");
        assert!(!shell(&folder, &format!("cue {verb} {INCIDENT}")).0.contains('\x1b'), "{verb}");
        assert!(shell(&folder, &format!("NO_COLOR=1 cue {verb} --color always {INCIDENT}")).0.contains('\x1b'), "{verb}");
    }
    fs::remove_dir_all(folder).unwrap();
}

/// Every example that `--help` shows works as it stands.
#[test]
fn examples_work() {
    let folder = folder("examples");
    let mut tried = 0;
    for verb in [""].iter().chain(&VERBS) {
        let help = stdout(&[*verb, "--help"].into_iter().filter(|word| !word.is_empty()).collect::<Vec<_>>());
        assert!(help.contains("Example"), "{help}");
        let (_, examples) = help.rsplit_once("Example").unwrap();
        for line in examples.lines().skip(1).map(str::trim).filter(|line| !line.is_empty()) {
            let (printed, said, status) = shell(&folder, &format!("set -o pipefail; {line}"));
            assert_eq!((said.as_str(), status), ("", 0), "{line}");
            assert!(!printed.is_empty(), "{line}");
            tried += 1;
        }
    }
    assert!(tried > VERBS.len(), "{tried}");
    fs::remove_dir_all(folder).unwrap();
}

/// Memory does not grow with the input: a line without end is passed over, and so is one of raw bytes.
#[test]
fn endless_lines() {
    let mut child = cue_command(&["check", "-"]).stdin(Stdio::piped()).stdout(Stdio::piped()).stderr(Stdio::piped()).spawn().unwrap();
    let mut input = child.stdin.take().unwrap();
    let writer = std::thread::spawn(move || {
        for _ in 0..300 {
            input.write_all(&[b'F'; 1 << 16]).unwrap();
        }
        input.write_all(format!("\n{NULL}\n").as_bytes()).unwrap();
    });
    let (mut printed, mut said) = (String::new(), String::new());
    child.stdout.take().unwrap().read_to_string(&mut printed).unwrap();
    child.stderr.take().unwrap().read_to_string(&mut said).unwrap();
    writer.join().unwrap();
    assert_eq!(child.wait().unwrap().code(), Some(2));
    assert_eq!(said, "cue 1: a line of more than 65536 bytes is no cue's text\n");
    assert!(printed.starts_with("cue 2: accepted"), "{printed}");
}

/// Each cue of a log that is being written is answered as it comes.
#[test]
fn a_log_that_goes_on() {
    let mut child = cue_command(&["check", "-"]).stdin(Stdio::piped()).stdout(Stdio::piped()).spawn().unwrap();
    let (mut input, mut answers) = (child.stdin.take().unwrap(), BufReader::new(child.stdout.take().unwrap()));
    for number in 1..=3 {
        writeln!(input, "{NULL}").unwrap();
        let mut line = String::new();
        answers.read_line(&mut line).unwrap();
        assert!(line.starts_with(&format!("cue {number}: accepted")), "{line}");
    }
    drop(input);
    assert!(child.wait().unwrap().success());
}

fn cue_command(words: &[&str]) -> Command {
    let program = assert_cmd::cargo::cargo_bin("cue");
    let mut command = match std::env::var_os("CARGO_TARGET_X86_64_UNKNOWN_LINUX_GNU_RUNNER") {
        Some(runner) => {
            let mut command = Command::new(runner);
            command.arg(program);
            command
        }
        None => Command::new(program),
    };
    command.args(words);
    command
}
