//! What the tests of all verbs need.
use assert_cmd::cargo::cargo_bin;
use assert_cmd::Command;

/// The incident's cue: a MID of an airing id and an Ad-ID.
pub const INCIDENT: &str = "FC303F000000000000FFFFF00506FE0000000000290227435545490000002A7FBF\
                            0D1808081122334455667788030C414243443132333435363738100101A86A17BC";

/// A splice_null.
pub const NULL: &str = "FC301100000000000000FFF0000000007A4FBFFF";

/// `cue` with these words, as built beside the tests.
pub fn cue(words: &[&str]) -> Command {
    let program = cargo_bin("cue");
    // on a machine that is not x86-64 cargo is told what runs the program
    let mut command = match std::env::var_os("CARGO_TARGET_X86_64_UNKNOWN_LINUX_GNU_RUNNER") {
        Some(runner) => {
            let mut command = Command::new(runner);
            command.arg(program);
            command
        }
        None => Command::new(program),
    };
    command.args(words).env_remove("NO_COLOR");
    command
}

/// What it prints where all goes well.
pub fn stdout(words: &[&str]) -> String {
    let output = cue(words).output().expect("runs");
    assert_eq!(output.status.code(), Some(0), "{words:?}: {}", String::from_utf8_lossy(&output.stderr));
    String::from_utf8(output.stdout).expect("text")
}

/// What it says on standard error, where it ends with that status.
pub fn stderr(words: &[&str], status: i32) -> String {
    let output = cue(words).output().expect("runs");
    let said = String::from_utf8(output.stderr).expect("text");
    assert_eq!(output.status.code(), Some(status), "{words:?}: {said}");
    said
}

/// A section of these bytes with a right CRC behind them. Blanks are left out.
pub fn with_crc(digits: &str) -> String {
    let digits = digits.replace(' ', "");
    let bytes = hex::decode(&digits).expect("digits");
    format!("{digits}{:08X}", scte35::crc(&bytes))
}

/// A section with a time signal of no time around a loop; its length and CRC are right.
pub fn around(descriptors: &str) -> String {
    let descriptors = descriptors.replace(' ', "");
    let length = descriptors.len() / 2;
    with_crc(&format!("FC3{:03X}000000000000FFFFF001067F{length:04X}{descriptors}", 11 + 1 + 2 + length + 4))
}

/// A section with that command around an empty loop.
pub fn of_command(command_type: u8, payload: &str) -> String {
    let payload = payload.replace(' ', "");
    let length = payload.len() / 2;
    with_crc(&format!("FC3{:03X}000000000000FFFFF{length:03X}{command_type:02X}{payload}0000", 11 + length + 2 + 4))
}

/// A segmentation descriptor with a UPID: its type, length and bytes.
pub fn with_upid(upid: &str) -> String {
    let payload = format!("435545490000002A7FBF{upid}100101").replace(' ', "");
    format!("02{:02X}{payload}", payload.len() / 2)
}

/// A cue for each refusal that a section can have.
pub fn refused_sections() -> Vec<(u8, String)> {
    vec![
        (1, "FC30".into()),
        (2, format!("FC{}", "00".repeat(4096))),
        (3, "003000".into()),
        (4, NULL.replace("BFFF", "BFFE")),
        (5, with_crc("FC3004")),
        (6, with_crc("FC301100800000000000FFF000000000")),
        (7, with_crc("FC301100000000000000FFF003000000")),
        (8, with_crc("FC300F00000000000000FFF00000")),
        (9, with_crc("FC301100000000000000FFF000000001")),
        (10, of_command(1, "")),
        (11, of_command(6, "")),
    ]
}

/// An item for each refusal that an item can have, with what is said of it.
pub fn refused_items() -> Vec<(u8, String, &'static str)> {
    vec![
        (21, "000443554549".into(), "4 expected, 0 there"),
        (21, with_upid("0D04 08030102"), "3 expected, 2 there"),
        (22, format!("02FF{}", "00".repeat(255)), "length is 255"),
        (23, with_upid("0D02 0000"), "type 0 inside a MID"),
        (24, with_upid("030C FF4243443132333435363738"), "12 bytes at"),
        (25, with_upid("0807 11223344556677"), "7 bytes of type 8, 8 expected"),
    ]
}
