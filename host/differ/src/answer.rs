//! What a reader answers, owned and plain, so that two answers are compared by `==`: every field of either side's answer is here.
//! Byte strings are their contents. Named numbers are numbers here; that they have the same names is compared by itself (`numbers`).
use std::fmt::Write;

#[derive(Debug, Clone, PartialEq, Eq)]
pub enum Section {
    Refused(u8),
    Accepted { header: Header, command: Command, items: Vec<Item> },
}

#[derive(Debug, Clone, PartialEq, Eq)]
pub struct Header {
    pub protocol_version: u8,
    pub encrypted: bool,
    pub algorithm: u8,
    pub pts_adjustment: u64,
    pub cw_index: u8,
    pub tier: u16,
    pub command_length: u16,
    pub command_type: u8,
}

#[derive(Debug, Clone, Copy, PartialEq, Eq)]
pub enum Time {
    Immediate,
    Unspecified,
    At(u64),
}

#[derive(Debug, Clone, PartialEq, Eq)]
pub enum Command {
    Refused(u8),
    Null,
    Bandwidth,
    Private { identifier: u32, bytes: Vec<u8> },
    TimeSignal(Time),
    Insert { event: u32, reserved: u8, detail: Option<Insert> },
}

#[derive(Debug, Clone, PartialEq, Eq)]
pub struct Insert {
    pub out: bool,
    pub mode: SpliceMode,
    /// automatic return, and the ticks
    pub duration: Option<(bool, u64)>,
    pub program_id: u16,
    pub avail: u8,
    pub expected: u8,
}

#[derive(Debug, Clone, PartialEq, Eq)]
pub enum SpliceMode {
    Program(Time),
    Components(Vec<(u8, Time)>),
}

/// An item of a loop. `Refused` is a refusal of a UPID too.
#[derive(Debug, Clone, PartialEq, Eq)]
pub enum Item {
    Refused(Refusal),
    Avail(u32),
    Dtmf { preroll: u8, chars: Vec<u8> },
    Time { seconds: u64, nanoseconds: u32, offset: u16 },
    Reserved { tag: u8, identifier: [u8; 4], bytes: Vec<u8> },
    Segmentation { event: u32, detail: Option<Segmentation> },
}

#[derive(Debug, Clone, PartialEq, Eq)]
pub enum Refusal {
    TooLong,
    NotEnoughData { expected: usize, actual: usize },
    DescriptorLength,
    Untyped,
    NotText { kind: u8, bytes: Vec<u8> },
    WrongLength { kind: u8, expected: usize, actual: usize },
}

#[derive(Debug, Clone, PartialEq, Eq)]
pub struct Segmentation {
    /// program, duration, not restricted
    pub flags: [bool; 3],
    pub restrictions: Option<Restrictions>,
    /// none: the whole program
    pub components: Option<Vec<(u8, u64)>>,
    pub duration: Option<u64>,
    pub upid: Upid,
    pub type_id: u8,
    pub segment: u8,
    pub expected: u8,
    pub sub_segments: Option<(u8, u8)>,
}

#[derive(Debug, Clone, PartialEq, Eq)]
pub struct Restrictions {
    pub web: bool,
    pub no_blackout: bool,
    pub archive: bool,
    pub device: u8,
}

/// `length` is what the reader says of the UPID's length, `bytes` the contents. A MID has its parts, outer before inner.
#[derive(Debug, Clone, PartialEq, Eq)]
pub struct Upid {
    pub kind: u8,
    pub length: usize,
    pub bytes: Vec<u8>,
    pub parts: Vec<Part>,
}

#[derive(Debug, Clone, PartialEq, Eq)]
pub struct Part {
    pub kind: u8,
    pub level: usize,
    pub start: usize,
    pub length: usize,
}

/// One step over a loop: none at its end.
#[derive(Debug, Clone, PartialEq, Eq)]
pub struct Step {
    pub item: Option<Item>,
    pub next: usize,
}

impl Refusal {
    pub fn number(&self) -> u8 {
        match self {
            Refusal::TooLong => 2,
            Refusal::NotEnoughData { .. } => 21,
            Refusal::DescriptorLength => 22,
            Refusal::Untyped => 23,
            Refusal::NotText { .. } => 24,
            Refusal::WrongLength { .. } => 25,
        }
    }
}

impl Item {
    pub fn word(&self) -> &'static str {
        match self {
            Item::Refused(_) => "refused",
            Item::Avail(_) => "avail",
            Item::Dtmf { .. } => "dtmf",
            Item::Time { .. } => "time",
            Item::Reserved { .. } => "reserved",
            Item::Segmentation { detail: None, .. } => "cancel",
            Item::Segmentation { detail: Some(_), .. } => "segment",
        }
    }
}

impl Command {
    pub fn word(&self) -> &'static str {
        match self {
            Command::Refused(_) => "refused",
            Command::Null => "null",
            Command::Bandwidth => "bandwidth reservation",
            Command::Private { .. } => "private",
            Command::TimeSignal(_) => "time signal",
            Command::Insert { detail: None, .. } => "insert cancelled",
            Command::Insert { detail: Some(Insert { mode: SpliceMode::Program(_), .. }), .. } => "insert by program",
            Command::Insert { .. } => "insert by components",
        }
    }
}

pub fn hex(bytes: &[u8]) -> String {
    bytes.iter().fold(String::new(), |mut s, b| {
        write!(s, "{b:02X}").expect("a string takes all");
        s
    })
}

pub fn unhex(digits: &str) -> Vec<u8> {
    let digits: String = digits.split_whitespace().collect();
    (0..digits.len() / 2).map(|i| u8::from_str_radix(&digits[2 * i..2 * i + 2], 16).expect("hexadecimal")).collect()
}
