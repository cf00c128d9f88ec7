//! Identifiers, and the parts of a MID.
use crate::names::SegmentationUpidType;
use crate::raw;
use crate::refusal::Refusal;

/// A segmentation UPID. A reader gives the case that belongs to the type; a writer refuses any other (`Refusal::Unwritable`).
#[derive(Debug, Clone, PartialEq, Eq, Hash)]
pub enum Upid<'a> {
    /// no bytes, whichever type was written
    None,
    /// ISCI, Ad-ID and TID
    Text {
        /// the type
        upid_type: SegmentationUpidType,
        /// all of its bytes
        text: &'a str,
    },
    /// an EIDR, held by value
    Eidr([u8; 12]),
    /// several identifiers in one
    Mid(Mid<'a>),
    /// all others; an ISAN has 8 bytes or 12
    Bytes {
        /// the type as reported: ISAN for both kinds of it
        upid_type: SegmentationUpidType,
        /// all of its bytes
        bytes: &'a [u8],
    },
}

/// Several identifiers in one. Made by `read_upid` or as an item is read, so that its parts are those of its bytes.
#[derive(Debug, Clone, PartialEq, Eq, Hash)]
pub struct Mid<'a> {
    bytes: &'a [u8],
    parts: Vec<Part<'a>>,
}

impl<'a> Mid<'a> {
    /// All of its bytes.
    pub fn bytes(&self) -> &'a [u8] {
        self.bytes
    }

    /// Its parts at every level, in byte order, each before those inside it; 127 at most.
    pub fn parts(&self) -> &[Part<'a>] {
        &self.parts
    }
}

/// A part of a MID: one identifier, or a MID inside it.
#[derive(Debug, Clone, Copy, PartialEq, Eq, Hash)]
#[non_exhaustive]
pub struct Part<'a> {
    /// the type as reported: ISAN for both kinds of it
    pub upid_type: SegmentationUpidType,
    /// 1 for the direct parts of the top MID
    pub level: usize,
    /// of its bytes, in the top MID's
    pub start: usize,
    /// its bytes, without the type and the length that stand before them
    pub bytes: &'a [u8],
}

impl Part<'_> {
    /// The type as it stands before the part's bytes, which `read_upid` and a writer of bytes take.
    pub fn written_type(&self) -> SegmentationUpidType {
        written_type(self.upid_type, self.bytes.len())
    }
}

impl<'a> Upid<'a> {
    /// The type as reported: none has type 0, and ISAN stands for both kinds of it.
    pub fn upid_type(&self) -> SegmentationUpidType {
        match self {
            Upid::None => SegmentationUpidType::NotUsed,
            Upid::Text { upid_type, .. } | Upid::Bytes { upid_type, .. } => *upid_type,
            Upid::Eidr(_) => SegmentationUpidType::EIDR,
            Upid::Mid(_) => SegmentationUpidType::MID,
        }
    }

    /// The type that is written before its bytes, which `read_upid` takes: of an ISAN of 8 bytes 5, where `upid_type` says 6.
    pub fn written_type(&self) -> SegmentationUpidType {
        written_type(self.upid_type(), self.bytes().len())
    }

    /// All of its bytes.
    pub fn bytes(&self) -> &[u8] {
        match self {
            Upid::None => &[],
            Upid::Text { text, .. } => text.as_bytes(),
            Upid::Bytes { bytes, .. } => bytes,
            Upid::Eidr(bytes) => bytes,
            Upid::Mid(mid) => mid.bytes,
        }
    }

    /// The parts of a MID; of any other none.
    pub fn parts(&self) -> &[Part<'a>] {
        match self {
            Upid::Mid(mid) => mid.parts(),
            _ => &[],
        }
    }

    /// A UPID of that reported type whose bytes are taken already; `eidr` is looked at where it is one.
    pub(crate) fn of(upid_type: u8, bytes: &'a [u8], eidr: [u8; 12]) -> Self {
        match SegmentationUpidType::from_type(upid_type) {
            SegmentationUpidType::NotUsed => Upid::None,
            SegmentationUpidType::EIDR => Upid::Eidr(eidr),
            SegmentationUpidType::MID => Upid::Mid(Mid { bytes, parts: parts(&raw::read_upid(13, bytes, 0), bytes) }),
            upid_type @ (SegmentationUpidType::ISCIDeprecated | SegmentationUpidType::AdID | SegmentationUpidType::TID) => {
                Upid::Text { upid_type, text: std::str::from_utf8(bytes).expect("taken for text by the reader") }
            }
            upid_type => Upid::Bytes { upid_type, bytes },
        }
    }
}

/// Both kinds of ISAN are reported as one, and told apart by length.
pub(crate) fn written_type(reported: SegmentationUpidType, len: usize) -> SegmentationUpidType {
    match (reported, len) {
        (SegmentationUpidType::ISAN, 8) => SegmentationUpidType::ISANDeprecated,
        _ => reported,
    }
}

fn parts<'a>(u: &raw::Upid, bytes: &'a [u8]) -> Vec<Part<'a>> {
    let part = |p: &raw::Part| Part {
        upid_type: SegmentationUpidType::from_type(p.upid_type as u8),
        level: p.level as usize,
        start: p.start as usize,
        bytes: &bytes[p.start as usize..][..p.len as usize],
    };
    u.parts[..u.count as usize].iter().map(part).collect()
}

/// Reads a UPID of the type as written from all of `bytes`. Refused with `Refusal::InputTooLong`, `NotEnoughData`, `UpidLengthTypeMismatch`,
/// `InvalidUpidContent` or `InvalidUpidLength`.
pub fn read_upid(written_type: SegmentationUpidType, bytes: &[u8]) -> Result<Upid<'_>, Refusal> {
    let u = raw::read_upid(written_type.id(), bytes, 0);
    match u.refusal {
        0 if u.upid_type == 13 => Ok(Upid::Mid(Mid { bytes, parts: parts(&u, bytes) })),
        0 => Ok(Upid::of(u.upid_type as u8, bytes, u.eidr.map(|b| b as u8))),
        n => Err(Refusal::answered(n, u.values)),
    }
}
