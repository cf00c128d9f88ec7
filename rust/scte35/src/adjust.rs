//! Adjustments in a chain: what two splicers do one after the other, one does. Sums are taken modulo 2^33.
use crate::header::SpliceTime;
use crate::raw;
use crate::refusal::Refusal;
use crate::MAX_SECTION;

impl SpliceTime {
    /// The time moved by an adjustment; one that is not specified stays as it is. Refused with `Refusal::TooLarge` where either has more than 33 bits.
    pub fn moved(self, adjustment: u64) -> Result<SpliceTime, Refusal> {
        let (kind, ticks) = match self {
            SpliceTime::Immediate => (1, 0),
            SpliceTime::Unspecified => (2, 0),
            SpliceTime::At(ticks) => (3, ticks),
        };
        let answer = raw::move_time(kind, ticks, adjustment);
        match answer.refusal {
            0 => Ok(SpliceTime::of(&raw::Time { kind: answer.kind, ticks: answer.ticks })),
            n => Err(Refusal::answered(n, [0; 3])),
        }
    }
}

/// The one adjustment that does what `a` and then `b` do. Refused with `Refusal::TooLarge` where either has more than 33 bits.
pub fn chain_adjustments(a: u64, b: u64) -> Result<u64, Refusal> {
    of(raw::chain_adjustments(a, b))
}

/// The adjustment that takes `a` back. Refused with `Refusal::TooLarge` where it has more than 33 bits.
pub fn undo_adjustment(a: u64) -> Result<u64, Refusal> {
    of(raw::undo_adjustment(a))
}

/// Writes the section with its pts_adjustment moved and its CRC mended, and no other byte changed, from the target's first byte on; says how many bytes that
/// are: as many as the section has.
pub fn adjust_section(section: &[u8], adjustment: u64, target: &mut [u8]) -> Result<usize, Refusal> {
    let answer = raw::adjust_section(section, 0, adjustment, target);
    match answer.refusal {
        0 => Ok(answer.length as usize),
        n => Err(Refusal::answered(n, [0; 3])),
    }
}

/// What `adjust_section` writes, as bytes of their own.
pub fn adjust_section_to_vec(section: &[u8], adjustment: u64) -> Result<Vec<u8>, Refusal> {
    let mut target = vec![0; section.len().min(MAX_SECTION)];
    let length = adjust_section(section, adjustment, &mut target)?;
    target.truncate(length);
    Ok(target)
}

fn of(answer: raw::Adjustment) -> Result<u64, Refusal> {
    match answer.refusal {
        0 => Ok(answer.adjustment),
        n => Err(Refusal::answered(n, [0; 3])),
    }
}
