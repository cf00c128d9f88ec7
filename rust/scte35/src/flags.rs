//! Numbers of one or two bits. A number that does not fit its field is refused.
use crate::raw;
use crate::refusal::Refusal;

/// out_of_network_indicator
#[derive(Debug, Clone, Copy, PartialEq, Eq, Hash)]
pub enum NetworkIndicator {
    /// back to the network
    In = 0,
    /// out of the network
    Out = 1,
}

/// auto_return
#[derive(Debug, Clone, Copy, PartialEq, Eq, Hash)]
pub enum ReturnMode {
    /// a later cue ends the break
    Manual = 0,
    /// the break ends with its duration
    Automatic = 1,
}

/// device_restrictions
#[derive(Debug, Clone, Copy, PartialEq, Eq, Hash)]
pub enum DeviceRestrictions {
    /// restricted for a group of devices that the message's users agree on, group 0
    RestrictGroup0 = 0,
    /// group 1
    RestrictGroup1 = 1,
    /// group 2
    RestrictGroup2 = 2,
    /// no restriction by device
    None = 3,
}

/// The name at the number that the proved function gives, or its refusal.
fn named<T: Copy>(answer: raw::Number, names: &[T]) -> Result<T, Refusal> {
    match answer.refusal {
        0 => Ok(names[answer.number as usize]),
        n => Err(Refusal::answered(n, [0; 3])),
    }
}

impl NetworkIndicator {
    /// What the flag means; over 1 it is no flag (`Refusal::NotInField`).
    pub fn from_flag(n: u8) -> Result<Self, Refusal> {
        named(raw::classify_network_indicator(n), &[Self::In, Self::Out])
    }

    /// out_of_network_indicator
    pub fn flag(self) -> u8 {
        self as u8
    }
}

impl ReturnMode {
    /// What the flag means; over 1 it is no flag (`Refusal::NotInField`).
    pub fn from_flag(n: u8) -> Result<Self, Refusal> {
        named(raw::classify_return_mode(n), &[Self::Manual, Self::Automatic])
    }

    /// auto_return
    pub fn flag(self) -> u8 {
        self as u8
    }
}

impl DeviceRestrictions {
    /// Each at its number.
    pub const ALL: [Self; 4] = [Self::RestrictGroup0, Self::RestrictGroup1, Self::RestrictGroup2, Self::None];

    /// What the two bits mean; over 3 they are not two (`Refusal::NotInField`).
    pub fn from_bits(n: u8) -> Result<Self, Refusal> {
        named(raw::classify_device_restrictions(n), &Self::ALL)
    }

    /// device_restrictions
    pub fn bits(self) -> u8 {
        self as u8
    }
}
