//! The splice header, and times.
use crate::names::{EncryptionAlgorithm, SpliceCommandType};
use crate::raw;
use crate::refusal::Refusal;

/// The splice header. To make one, start from `SpliceInfoHeader::default()` and set its fields.
#[derive(Debug, Clone, Copy, PartialEq, Eq, Hash)]
#[non_exhaustive]
pub struct SpliceInfoHeader {
    /// 0 in every edition so far
    pub protocol_version: u8,
    /// an encrypted section is neither read nor written; a header alone is read
    pub encrypted_packet: bool,
    /// 6 bits; looked at only where the packet is encrypted
    pub encryption_algorithm: EncryptionAlgorithm,
    /// 33 bits, in ticks of 90 kHz: to be added to every time of the section
    pub pts_adjustment: u64,
    /// which control word; looked at only where the packet is encrypted
    pub cw_index: u8,
    /// 12 bits; 0xFFF: any tier
    pub tier: u16,
    /// the bytes of the command's payload; a writer works them out
    pub splice_command_length: u16,
    /// the command's type; a writer works it out
    pub splice_command_type: SpliceCommandType,
}

/// Version 0, not encrypted, no adjustment, control word 0, any tier; a null command of no bytes.
impl Default for SpliceInfoHeader {
    fn default() -> Self {
        SpliceInfoHeader {
            protocol_version: 0,
            encrypted_packet: false,
            encryption_algorithm: EncryptionAlgorithm::None,
            pts_adjustment: 0,
            cw_index: 0,
            tier: 0xFFF,
            splice_command_length: 0,
            splice_command_type: SpliceCommandType::SpliceNull,
        }
    }
}

impl SpliceInfoHeader {
    pub(crate) fn of(h: &raw::Header) -> Self {
        SpliceInfoHeader {
            protocol_version: h.protocol_version as u8,
            encrypted_packet: h.encrypted_packet != 0,
            encryption_algorithm: EncryptionAlgorithm::from_id(h.encryption_algorithm as u8),
            pts_adjustment: h.pts_adjustment,
            cw_index: h.cw_index as u8,
            tier: h.tier as u16,
            splice_command_length: h.splice_command_length as u16,
            splice_command_type: SpliceCommandType::from_id(h.splice_command_type as u8),
        }
    }
}

/// Reads the splice header in the first 11 bytes. Refused with `Refusal::NoHeader` where they are fewer.
pub fn read_header(bytes: &[u8]) -> Result<SpliceInfoHeader, Refusal> {
    let h = raw::read_header(bytes, 0);
    match h.refusal {
        0 => Ok(SpliceInfoHeader::of(&h)),
        n => Err(Refusal::answered(n, [0; 3])),
    }
}

/// A splice_time, or that the splice is immediate.
#[derive(Debug, Clone, Copy, PartialEq, Eq, Hash)]
pub enum SpliceTime {
    /// splice_immediate_flag is set, and so there is no splice_time
    Immediate,
    /// time_specified_flag is 0
    Unspecified,
    /// 33 bits, in ticks of 90 kHz
    At(u64),
}

impl SpliceTime {
    pub(crate) fn of(t: &raw::Time) -> Self {
        match t.kind {
            1 => SpliceTime::Immediate,
            3 => SpliceTime::At(t.ticks),
            _ => SpliceTime::Unspecified,
        }
    }

    /// The time with its section's adjustment added, modulo 2^33, where one is specified. Refused with `Refusal::TooLarge` where either has more than 33 bits.
    pub fn adjusted(self, pts_adjustment: u64) -> Result<Option<u64>, Refusal> {
        let (kind, ticks) = match self {
            SpliceTime::Immediate => (1, 0),
            SpliceTime::Unspecified => (2, 0),
            SpliceTime::At(ticks) => (3, ticks),
        };
        let answer = raw::adjust_time(kind, ticks, pts_adjustment);
        match (answer.refusal, answer.kind) {
            (0, 3) => Ok(Some(answer.ticks)),
            (0, _) => Ok(None),
            (n, _) => Err(Refusal::answered(n, [0; 3])),
        }
    }
}
