//! One identifier of a section replaced, and every other one kept.
use crate::names::SegmentationUpidType;
use crate::raw;
use crate::refusal::Refusal;
use crate::upid::{read_upid, Upid};
use crate::write::write_section_to_vec;
use crate::{read_section, Section, MAX_SECTION};
use std::borrow::Cow;

/// Writes the section in which one identifier is replaced, from the target's first byte on; says how many bytes that are.
///
/// `offset` is the item's in its loop, as `Step` and `Item` count it; part 0 is the item's UPID itself, part k the k-th of its MID's parts as `read_upid` lists
/// them (from 1 on, at any level). The type is the one that is written: 5 with 8 bytes is taken, and 6 with 8 bytes is refused. Every length around the
/// identifier and the CRC are mended; no other byte changes.
///
/// Refused, in this order, with 1 to 11 for the section, `Refusal::NoSuchIdentifier`, `Refusal::TooLarge`, `Refusal::Unwritable`, `Refusal::ResultTooLong` and
/// `Refusal::TargetTooShort`; a refused write changes no byte. `Section::relabel` is the same of a reading.
pub fn relabel(
    section: &[u8],
    offset: usize,
    part: usize,
    upid_type: SegmentationUpidType,
    bytes: &[u8],
    target: &mut [u8],
) -> Result<usize, Refusal> {
    let answer = raw::relabel(section, offset, part, upid_type.id(), bytes, target);
    match answer.refusal {
        0 => Ok(answer.length as usize),
        n => Err(Refusal::answered(n, [0; 3])),
    }
}

/// What `relabel` writes, as bytes of their own.
pub fn relabel_to_vec(section: &[u8], offset: usize, part: usize, upid_type: SegmentationUpidType, bytes: &[u8]) -> Result<Vec<u8>, Refusal> {
    let mut target = vec![0; MAX_SECTION];
    let length = relabel(section, offset, part, upid_type, bytes, &mut target)?;
    target.truncate(length);
    Ok(target)
}

impl<'a> Section<'a> {
    /// Writes the section in which one identifier is replaced by another, and every other one is kept, from the target's first byte on; says how many bytes
    /// that are. See `relabel`, which takes the section's bytes.
    ///
    /// `item` is the item's offset in the loop and `part` says which of its identifiers, 0 the UPID itself: as `Identifier::item` and `Identifier::part` have
    /// them. What is replaced stands in the bytes that the section was read from, so that reserved bits, spare bytes and refused items stay. A section that
    /// was made by `Section::new`, or in which a field was changed since, is first written (`write_section`, with its refusals), and relabelled then.
    ///
    /// A `new` that no reader gives, such as text of a type that is none, is refused as the writers refuse it (`Refusal::Unwritable`).
    pub fn relabel(&self, item: usize, part: usize, new: &Upid<'_>, target: &mut [u8]) -> Result<usize, Refusal> {
        let (upid_type, bytes) = (new.written_type(), new.bytes());
        // no bytes at all are no UPID for `read_upid`, and may be a part
        if bytes.is_empty() || read_upid(upid_type, bytes).as_ref() == Ok(new) {
            return relabel(&self.as_read()?, item, part, upid_type, bytes, target);
        }
        // refused in the order of the refusals; the target is not handed on
        match relabel(&self.as_read()?, item, part, upid_type, bytes, &mut []) {
            Err(refusal @ (Refusal::NoSuchIdentifier | Refusal::TooLarge)) => Err(refusal),
            _ => Err(Refusal::Unwritable),
        }
    }

    /// What `Section::relabel` writes, as bytes of their own.
    pub fn relabel_to_vec(&self, item: usize, part: usize, new: &Upid<'_>) -> Result<Vec<u8>, Refusal> {
        let mut target = vec![0; MAX_SECTION];
        let length = self.relabel(item, part, new, &mut target)?;
        target.truncate(length);
        Ok(target)
    }

    /// The bytes that read as this section: those that it was read from, or, where it is not what they say, those that are written of it.
    fn as_read(&self) -> Result<Cow<'a, [u8]>, Refusal> {
        match self.from.0 {
            Some(bytes) if read_section(bytes).as_ref() == Ok(self) => Ok(Cow::Borrowed(bytes)),
            _ => write_section_to_vec(self).map(Cow::Owned),
        }
    }
}
