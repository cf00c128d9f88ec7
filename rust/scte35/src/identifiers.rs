//! Where each identifier lies.
use crate::items::{SpliceDescriptor, SpliceDescriptors};
use crate::names::SegmentationUpidType;
use crate::raw;
use crate::upid::{written_type, Part};

/// What an identifier is one of.
#[derive(Debug, Clone, Copy, PartialEq, Eq, Hash)]
pub enum IdentifierKind {
    /// the UPID of a segmentation descriptor; of a MID, all of it
    Upid,
    /// a part of a MID, at any level
    Part,
    /// the characters of a DTMF descriptor
    DtmfChars,
    /// the bytes of a descriptor that is reserved here, behind its own identifier
    ReservedBytes,
    /// the bytes of a private command, behind its own identifier
    PrivateBytes,
}

/// An identifier as one unbroken run of bytes, and where it lies.
#[derive(Debug, Clone, Copy, PartialEq, Eq, Hash)]
#[non_exhaustive]
pub struct Identifier<'a> {
    /// what it is one of
    pub kind: IdentifierKind,
    /// the offset in the loop of the item that it stands in; none of a private command's
    pub item: Option<usize>,
    /// n of the n-th part of the item's MID, from 1 on, as `Mid::parts` lists them; 0 of all that is no part
    pub part: usize,
    /// how many MIDs it lies in: 0 of a UPID itself, 1 of the direct parts of a MID
    pub level: usize,
    /// the type as reported, of a UPID or a part: ISAN for both kinds of it
    pub upid_type: Option<SegmentationUpidType>,
    /// its place, counted from the section's first byte (of a loop alone: from the loop's)
    pub at: usize,
    /// its bytes, without the type and the length that stand before them
    pub bytes: &'a [u8],
}

impl Identifier<'_> {
    /// How many bytes it has.
    #[allow(clippy::len_without_is_empty)]
    pub fn len(&self) -> usize {
        self.bytes.len()
    }

    /// The type as it stands before the identifier's bytes: of an ISAN of 8 bytes 5, where `upid_type` says 6.
    pub fn written_type(&self) -> Option<SegmentationUpidType> {
        self.upid_type.map(|reported| written_type(reported, self.bytes.len()))
    }

    /// The text of an ISCI, an Ad-ID or a TID.
    pub fn text(&self) -> Option<&str> {
        use SegmentationUpidType::{AdID, ISCIDeprecated, TID};
        self.upid_type.filter(|t| matches!(t, ISCIDeprecated | AdID | TID)).and_then(|_| std::str::from_utf8(self.bytes).ok())
    }

    pub(crate) fn of_command(private_bytes: &[u8], at: usize) -> Identifier<'_> {
        Identifier { kind: IdentifierKind::PrivateBytes, item: None, part: 0, level: 0, upid_type: None, at, bytes: private_bytes }
    }
}

/// The one run of bytes that an item hands back.
pub(crate) type Run<'a> = Identifier<'a>;

impl<'a> Run<'a> {
    /// That of the step that was read at an offset of a loop; none of a kind without one, and of a UPID that is none.
    pub(crate) fn of(t: &raw::Step, descriptors: SpliceDescriptors<'a>, offset: usize) -> Option<Self> {
        let i = &t.item;
        let upid_type = (i.kind == 4).then(|| SegmentationUpidType::from_type(i.segmentation.segmentation_upid_type as u8));
        let kind = match (i.kind, upid_type) {
            (2, _) => IdentifierKind::DtmfChars,
            (4, Some(SegmentationUpidType::NotUsed)) => return None,
            (4, _) => IdentifierKind::Upid,
            (6, _) => IdentifierKind::ReservedBytes,
            _ => return None,
        };
        let (at, len) = match upid_type {
            // held by value, and so without a view
            Some(SegmentationUpidType::EIDR) => (upid_at(&i.segmentation, offset), 12),
            _ => (i.bytes.at as usize, i.bytes.len as usize),
        };
        let bytes = &descriptors.bytes()[at..][..len];
        Some(Identifier { kind, item: Some(offset), part: 0, level: 0, upid_type, at: descriptors.at() + at, bytes })
    }
}

/// Where the UPID's bytes begin of a segmentation descriptor at an offset: behind tag, length and "CUEI"; event id, cancel bit and flags; components; duration; the UPID's
/// type and length.
fn upid_at(s: &raw::Segmentation, offset: usize) -> usize {
    let components = if s.program_segmentation_flag == 1 { 0 } else { 1 + 6 * s.component_count as usize };
    let duration = if s.segmentation_duration_flag == 1 { 5 } else { 0 };
    offset + 6 + 6 + components + duration + 2
}

/// The run, and behind it each part of a MID.
pub(crate) fn identifiers<'a, 'b>(run: Option<Run<'a>>, item: Option<&'b SpliceDescriptor<'a>>) -> impl Iterator<Item = Identifier<'a>> + 'b {
    let parts: &[Part<'a>] = match item {
        Some(SpliceDescriptor::Segmentation { detail: Some(detail), .. }) => detail.segmentation_upid.parts(),
        _ => &[],
    };
    let inside = move |(k, p): (usize, &Part<'a>)| {
        run.map(|top| Identifier {
            kind: IdentifierKind::Part,
            part: k + 1,
            level: p.level,
            upid_type: Some(p.upid_type),
            at: top.at + p.start,
            bytes: p.bytes,
            ..top
        })
    };
    run.into_iter().chain(parts.iter().enumerate().filter_map(inside))
}
