//! Named numbers of the standard. A number without a name keeps its value.
//!
//! Lines of the form `NAME = NUMBER,` are compared with the Rattle sources by host/layout.

macro_rules! named {
    ($(#[$doc:meta])* $name:ident, $from:ident, $to:ident { $($variant:ident = $number:literal),* $(,)? } $other:ident) => {
        $(#[$doc])*
        #[derive(Debug, Clone, Copy, PartialEq, Eq, Hash)]
        pub enum $name {
            $(#[doc = stringify!($number)] $variant,)*
            /// Any other number.
            $other(u8),
        }

        impl $name {
            /// What the number means.
            pub fn $from(number: u8) -> Self {
                match number {
                    $($number => $name::$variant,)*
                    n => $name::$other(n),
                }
            }

            /// The number.
            pub fn $to(self) -> u8 {
                match self {
                    $($name::$variant => $number,)*
                    $name::$other(n) => n,
                }
            }

            /// The name, as it is written here; that of a number without one is "Reserved".
            pub fn name(self) -> &'static str {
                match self {
                    $($name::$variant => stringify!($variant),)*
                    $name::$other(_) => stringify!($other),
                }
            }
        }
    };
}

named! {
    /// splice_command_type
    SpliceCommandType, from_id, id {
        SpliceNull = 0x00,
        SpliceSchedule = 0x04,
        SpliceInsert = 0x05,
        TimeSignal = 0x06,
        BandwidthReservation = 0x07,
        PrivateCommand = 0xFF,
    } Reserved
}

named! {
    /// segmentation_upid_type
    SegmentationUpidType, from_type, id {
        NotUsed = 0,
        UserDefinedDeprecated = 1,
        ISCIDeprecated = 2,
        AdID = 3,
        UMID = 4,
        ISANDeprecated = 5,
        ISAN = 6,
        TID = 7,
        TI = 8,
        ADI = 9,
        EIDR = 10,
        ATSC = 11,
        MPU = 12,
        MID = 13,
        ADS = 14,
        URI = 15,
    } Reserved
}

named! {
    /// segmentation_type_id
    SegmentationTypeId, from_id, id {
        NotIndicated = 0x00,
        ContentIdentification = 0x01,
        ProgramStart = 0x10,
        ProgramEnd = 0x11,
        ProgramEarlyTermination = 0x12,
        ProgramBreakaway = 0x13,
        ProgramResumption = 0x14,
        ProgramRunoverPlanned = 0x15,
        ProgramRunoverUnplanned = 0x16,
        ProgramOverlapStart = 0x17,
        ProgramBlackoutOverride = 0x18,
        ProgramStartInProgress = 0x19,
        ChapterStart = 0x20,
        ChapterEnd = 0x21,
        BreakStart = 0x22,
        BreakEnd = 0x23,
        ProviderAdvertisementStart = 0x30,
        ProviderAdvertisementEnd = 0x31,
        DistributorAdvertisementStart = 0x32,
        DistributorAdvertisementEnd = 0x33,
        ProviderPlacementOpportunityStart = 0x34,
        ProviderPlacementOpportunityEnd = 0x35,
        DistributorPlacementOpportunityStart = 0x36,
        DistributorPlacementOpportunityEnd = 0x37,
        UnscheduledEventStart = 0x40,
        UnscheduledEventEnd = 0x41,
        NetworkStart = 0x50,
        NetworkEnd = 0x51,
    } Reserved
}

/// encryption_algorithm: 4 to 31 are reserved, 32 and over private.
#[derive(Debug, Clone, Copy, PartialEq, Eq, Hash)]
pub enum EncryptionAlgorithm {
    /// 0
    None,
    /// 1
    DesEcb,
    /// 2
    DesCbc,
    /// 3
    TripleDesEde3Ecb,
    /// 4 to 31
    Reserved(u8),
    /// 32 and over; a header's field has 6 bits, so it reads 32 to 63
    Private(u8),
}

impl EncryptionAlgorithm {
    /// What the number means.
    pub fn from_id(id: u8) -> Self {
        match id {
            0 => Self::None,
            1 => Self::DesEcb,
            2 => Self::DesCbc,
            3 => Self::TripleDesEde3Ecb,
            4..=31 => Self::Reserved(id),
            32.. => Self::Private(id),
        }
    }

    /// The number.
    pub fn id(self) -> u8 {
        match self {
            Self::None => 0,
            Self::DesEcb => 1,
            Self::DesCbc => 2,
            Self::TripleDesEde3Ecb => 3,
            Self::Reserved(id) | Self::Private(id) => id,
        }
    }

    /// The name, as it is written here.
    pub fn name(self) -> &'static str {
        match self {
            Self::None => "None",
            Self::DesEcb => "DesEcb",
            Self::DesCbc => "DesCbc",
            Self::TripleDesEde3Ecb => "TripleDesEde3Ecb",
            Self::Reserved(_) => "Reserved",
            Self::Private(_) => "Private",
        }
    }
}
