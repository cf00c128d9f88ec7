//! Why a reader or a writer refuses: one type for all of them, with the numbers of docs/REFUSALS.md.
use crate::names::SegmentationUpidType;
use std::fmt;

// Name, number and words of each stand in one place.
macro_rules! refusals {
    ($($(#[$mark:meta])? $name:ident $({ $($(#[$doc:meta])* $field:ident: $type:ty),* $(,)? })? = $number:literal, $text:literal;)*) => {
        /// Why something is refused: the first reason that applies. `number` and `name` are the same in C, in Rattle and in docs/REFUSALS.md.
        ///
        /// 1 to 11 refuse a section, a header or a command; 12 a number that should be a flag's; 21 to 25 an item of a loop or a UPID, never the
        /// section around it; 31 to 36 a value that is to be written; 41 an identifier that is to be replaced; 51 to 53 a line of a playlist; 61 to 63 a
        /// call of a board; 71 to 75 a transport packet. More may come.
        #[derive(Debug, Clone, Copy, PartialEq, Eq, Hash)]
        #[non_exhaustive]
        pub enum Refusal {
            $(
                #[doc = concat!(stringify!($number), ": ", $text, ".")]
                $(#[$mark])?
                $name $({ $($(#[$doc])* $field: $type),* })?,
            )*
        }

        impl Refusal {
            /// The number that docs/REFUSALS.md has a row for.
            pub fn number(self) -> u8 {
                match self {
                    $(Refusal::$name { .. } => $number,)*
                }
            }

            /// The name, as it is written here.
            pub fn name(self) -> &'static str {
                match self {
                    $(Refusal::$name { .. } => stringify!($name),)*
                }
            }

            /// What it means, in words, without the values.
            pub fn text(self) -> &'static str {
                match self {
                    $(Refusal::$name { .. } => $text,)*
                }
            }
        }
    };
}

refusals! {
    SectionTooShort = 1, "section under 3 bytes";
    InputTooLong = 2, "section over 4,096 bytes, loop over 4,076, or UPID over 255";
    OtherTable = 3, "the first byte is not 0xFC";
    WrongCrc = 4, "the CRC over all bytes is not 0";
    NoHeader = 5, "section under 18 bytes, or a header alone under 11";
    Encrypted = 6, "the encrypted bit is set";
    CommandTooLong = 7, "the command's length exceeds the bytes after the header, CRC excluded";
    NoLoopLength = 8, "fewer than 2 bytes follow the command";
    LoopTooLong = 9, "the loop's length exceeds the bytes that follow it, CRC excluded";
    UnknownCommand = 10, "the command's type is none that is read";
    MalformedCommand = 11, "the command's payload is malformed";
    NotInField = 12, "a flag over 1, or device restrictions over 3";
    #[non_exhaustive]
    NotEnoughData {
        /// how many bytes were wanted
        expected: usize,
        /// how many there were
        actual: usize,
    } = 21, "not enough data";
    #[non_exhaustive]
    InvalidDescriptorLength {} = 22, "the descriptor's length is 255, and it fits";
    #[non_exhaustive]
    UpidLengthTypeMismatch {} = 23, "a part of type 0 inside a MID, or a nonempty UPID of type 0";
    #[non_exhaustive]
    InvalidUpidContent {
        /// the type as written
        upid_type: SegmentationUpidType,
        /// the text's place in what was lent: of an item in its loop, of a UPID in its bytes
        at: usize,
        /// the text's length
        len: usize,
    } = 24, "UPID text that is not UTF-8";
    #[non_exhaustive]
    InvalidUpidLength {
        /// the type as written
        upid_type: SegmentationUpidType,
        /// the length that the type asks for
        expected: usize,
        /// the length that it has
        actual: usize,
    } = 25, "UPID of wrong length";
    OutsideLent = 31, "a view reaches outside the lent bytes";
    TooLarge = 32, "a number or a count exceeds its field, or there are more than 7 DTMF characters or 255 bytes of a UPID";
    Unwritable = 33, "a value that no canonical reading has";
    ResultTooLong = 34, "a descriptor's length over 254, or a section over 4,096 bytes";
    LoopNotCanonical = 35, "the descriptor loop that is handed in is not canonical";
    TargetTooShort = 36, "the target is shorter than the result";
    NoSuchIdentifier = 41, "no identifier stands there that can be replaced";
    AttributeMissing = 51, "a line without ID, START-DATE or any of the three cue attributes";
    MalformedLine = 52, "no EXT-X-DATERANGE line, or a repeated name, or a value of another kind than its name asks for";
    Unquotable = 53, "an ID or date that holds a double quote, CR or LF";
    BoardFull = 61, "as many breaks are open as may be";
    NotOpen = 62, "no open break has this event id";
    NoSuchChannel = 63, "the channel is neither 0 nor 1";
    NotAPacket = 71, "not a transport packet: not 188 bytes, or another sync byte than 0x47";
    OtherPid = 72, "a packet of another PID";
    Scrambled = 73, "the packet is scrambled";
    PayloadOutside = 74, "the adaptation field or the pointer leaves no payload in the packet";
    SectionLengthTooLarge = 75, "a section_length over 4,093";
}

impl Refusal {
    /// The values that go with the number, as the C functions answer them; 0 where there is none.
    pub fn values(self) -> [u64; 3] {
        match self {
            Refusal::NotEnoughData { expected, actual } => [expected as u64, actual as u64, 0],
            Refusal::InvalidUpidContent { upid_type, at, len } => [upid_type.id().into(), at as u64, len as u64],
            Refusal::InvalidUpidLength { upid_type, expected, actual } => [upid_type.id().into(), expected as u64, actual as u64],
            _ => [0; 3],
        }
    }

    /// The refusal of that number and those values, as the C functions answer them; none for 0 and for a number that is none.
    pub fn from_words(number: u64, values: [u64; 3]) -> Option<Refusal> {
        let [a, b, c] = values.map(|v| v as usize);
        Some(match number {
            1 => Refusal::SectionTooShort,
            2 => Refusal::InputTooLong,
            3 => Refusal::OtherTable,
            4 => Refusal::WrongCrc,
            5 => Refusal::NoHeader,
            6 => Refusal::Encrypted,
            7 => Refusal::CommandTooLong,
            8 => Refusal::NoLoopLength,
            9 => Refusal::LoopTooLong,
            10 => Refusal::UnknownCommand,
            11 => Refusal::MalformedCommand,
            12 => Refusal::NotInField,
            21 => Refusal::NotEnoughData { expected: a, actual: b },
            22 => Refusal::InvalidDescriptorLength {},
            23 => Refusal::UpidLengthTypeMismatch {},
            24 => Refusal::InvalidUpidContent { upid_type: SegmentationUpidType::from_type(a as u8), at: b, len: c },
            25 => Refusal::InvalidUpidLength { upid_type: SegmentationUpidType::from_type(a as u8), expected: b, actual: c },
            31 => Refusal::OutsideLent,
            32 => Refusal::TooLarge,
            33 => Refusal::Unwritable,
            34 => Refusal::ResultTooLong,
            35 => Refusal::LoopNotCanonical,
            36 => Refusal::TargetTooShort,
            41 => Refusal::NoSuchIdentifier,
            51 => Refusal::AttributeMissing,
            52 => Refusal::MalformedLine,
            53 => Refusal::Unquotable,
            61 => Refusal::BoardFull,
            62 => Refusal::NotOpen,
            63 => Refusal::NoSuchChannel,
            71 => Refusal::NotAPacket,
            72 => Refusal::OtherPid,
            73 => Refusal::Scrambled,
            74 => Refusal::PayloadOutside,
            75 => Refusal::SectionLengthTooLarge,
            _ => return None,
        })
    }

    /// The refusal that an answer of the library holds.
    pub(crate) fn answered(number: u64, values: [u64; 3]) -> Refusal {
        Refusal::from_words(number, values).unwrap_or_else(|| unreachable!("no refusal has the number {number}"))
    }
}

/// What it means with its values, then the number: `not enough data: 4 expected, 0 there (refusal 21)`.
impl fmt::Display for Refusal {
    fn fmt(&self, f: &mut fmt::Formatter<'_>) -> fmt::Result {
        f.write_str(self.text())?;
        match self {
            Refusal::NotEnoughData { expected, actual } => write!(f, ": {expected} expected, {actual} there")?,
            Refusal::InvalidUpidContent { upid_type, at, len } => write!(f, ": {len} bytes at {at}, of type {}", upid_type.id())?,
            Refusal::InvalidUpidLength { upid_type, expected, actual } => {
                write!(f, ": {actual} bytes of type {}, {expected} expected", upid_type.id())?
            }
            _ => {}
        }
        write!(f, " (refusal {})", self.number())
    }
}

impl std::error::Error for Refusal {}
