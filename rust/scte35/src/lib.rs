//! SCTE 35 cue sections, read and written by proved code: `libscte35.a` behind types of Rust. Every function takes any bytes and answers.
//!
//! ```
//! # fn main() -> Result<(), scte35::Refusal> {
//! # let bytes = scte35_sample();
//! let section = scte35::read_section(&bytes)?;
//! for item in section.descriptors {
//!     match item.item {
//!         Ok(descriptor) => println!("{} at {}: {descriptor:?}", item.len, item.offset),
//!         Err(refusal) => println!("at {}: {refusal}", item.offset),
//!     }
//! }
//! for identifier in section.identifiers() {
//!     println!("{} bytes from byte {} of the section on", identifier.len(), identifier.at);
//! }
//! # Ok(())
//! # }
//! # fn scte35_sample() -> Vec<u8> {
//! #     let digits = "FC3034000000000000FFFFF00506FE72BD0050001E021C435545494800008E7FCF0001A599B00808000000002CA0A18A3402009AC9D17E";
//! #     (0..digits.len() / 2).map(|i| u8::from_str_radix(&digits[2 * i..2 * i + 2], 16).unwrap()).collect()
//! # }
//! ```
//!
//! What was read is what the writers take. `Section::write_back` writes a section as it was read. To change one, write its items as a loop, and the
//! section around that:
//!
//! ```
//! use scte35::*;
//!
//! fn renumbered(bytes: &[u8]) -> Result<Vec<u8>, Refusal> {
//!     let mut section = read_section(bytes)?;
//!     let mut items = section.descriptors.iter().map(|x| x.item).collect::<Result<Vec<_>, _>>()?;
//!     for item in &mut items {
//!         if let SpliceDescriptor::Avail { provider_avail_id } = item {
//!             *provider_avail_id += 1;
//!         }
//!     }
//!     let descriptors = write_loop_to_vec(&items)?;
//!     section.descriptors = SpliceDescriptors::new(&descriptors);
//!     write_section_to_vec(&section)
//! }
//! # let sample: Vec<u8> = (0..50).map(|i| u8::from_str_radix(&SAMPLE[2 * i..2 * i + 2], 16).unwrap()).collect();
//! # const SAMPLE: &str = "FC302F000000000000FFFFF014054800008F7FEFFE7369C02EFE0052CCF500000000000A0008435545490000013562DBA30A";
//! # let written = renumbered(&sample).unwrap();
//! # let items: Vec<_> = read_section(&written).unwrap().descriptors.iter().map(|x| x.item).collect();
//! # assert_eq!(items, [Ok(SpliceDescriptor::Avail { provider_avail_id: 310 })]);
//! ```
//!
//! `Section::relabel` replaces one identifier and mends every length around it; every other byte stays:
//!
//! ```
//! use scte35::*;
//!
//! /// The cue with every airing id (type 8) of its MIDs replaced by an Ad-ID.
//! fn relabelled(bytes: &[u8], ad_id: &str) -> Result<Vec<u8>, Refusal> {
//!     let new = Upid::Text { upid_type: SegmentationUpidType::AdID, text: ad_id };
//!     let mut cue = bytes.to_vec();
//!     loop {
//!         let section = read_section(&cue)?;
//!         let is_one = |x: &Identifier| x.part > 0 && x.upid_type == Some(SegmentationUpidType::TI);
//!         let Some((Some(item), part)) = section.identifiers().find(is_one).map(|x| (x.item, x.part)) else { return Ok(cue) };
//!         // lengths and places may have moved: the result is read again
//!         cue = section.relabel_to_vec(item, part, &new)?;
//!     }
//! }
//! # let digits = "FC303F000000000000FFFFF00506FE0000000000290227435545490000002A7FBF0D1808081122334455667788030C414243443132333435363738100101A86A17BC";
//! # let cue: Vec<u8> = (0..digits.len() / 2).map(|i| u8::from_str_radix(&digits[2 * i..2 * i + 2], 16).unwrap()).collect();
//! # let new = relabelled(&cue, "NEWS00000001").unwrap();
//! # let texts: Vec<_> = read_section(&new).unwrap().identifiers().filter_map(|x| x.text().map(String::from)).collect();
//! # assert_eq!(texts, ["NEWS00000001", "ABCD12345678"]);
//! ```
//!
//! Nothing is kept between calls, and every function may be called from any thread.
#![deny(missing_docs)]

mod adjust;
pub mod board;
mod command;
mod daterange;
mod flags;
mod header;
mod identifiers;
mod items;
mod names;
pub mod packet;
pub mod raw;
mod refusal;
mod relabel;
mod upid;
mod write;

pub use adjust::{adjust_section, adjust_section_to_vec, chain_adjustments, undo_adjustment};
pub use command::{read_command, InsertComponent, InsertDetail, SpliceCommand, SpliceDuration, SpliceInsert, SpliceMode};
pub use daterange::{read_daterange, read_daterange_to_vec, write_daterange, write_daterange_to_vec, CueName, Daterange};
pub use flags::{DeviceRestrictions, NetworkIndicator, ReturnMode};
pub use header::{read_header, SpliceInfoHeader, SpliceTime};
pub use identifiers::{Identifier, IdentifierKind};
pub use items::{
    read_item, DeliveryRestrictions, Item, Items, SegmentationComponent, SegmentationDetail, SpliceDescriptor, SpliceDescriptors, Step, SubSegments,
};
pub use names::{EncryptionAlgorithm, SegmentationTypeId, SegmentationUpidType, SpliceCommandType};
pub use refusal::Refusal;
pub use relabel::{relabel, relabel_to_vec};
pub use upid::{read_upid, Mid, Part, Upid};
pub use write::{
    is_canonical_descriptor, is_canonical_loop, is_canonical_section, write_command, write_command_to_vec, write_descriptor, write_descriptor_to_vec,
    write_loop, write_loop_to_vec, write_section, write_section_to_vec,
};

/// The most bytes of a section.
pub const MAX_SECTION: usize = 4096;
/// The most bytes of a descriptor loop.
pub const MAX_LOOP: usize = 4076;
/// The most bytes of a descriptor.
pub const MAX_DESCRIPTOR: usize = 256;
/// The most bytes of a UPID.
pub const MAX_UPID: usize = 255;
/// The most components of an insert or of a segmentation descriptor.
pub const MAX_COMPONENTS: usize = 255;
/// The most parts of a MID, at all levels together.
pub const MAX_PARTS: usize = 127;
/// Where a section's command begins: behind 3 bytes of common header and 11 of splice header.
const COMMAND_AT: usize = 14;
/// Where the bytes of a private command begin: behind its identifier.
const PRIVATE_BYTES_AT: usize = COMMAND_AT + 4;

/// The bytes that a view names.
fn view<'a>(lent: &'a [u8], v: &raw::View) -> &'a [u8] {
    &lent[v.at as usize..][..v.len as usize]
}

/// A section: its header, its command, and its descriptor loop; one that was read keeps the bytes that it was read from, too. `==` compares header, command and
/// loop, and so the loop's bytes; `Section::reads_as` compares readings.
#[derive(Debug, Clone, PartialEq, Eq, Hash)]
#[non_exhaustive]
pub struct Section<'a> {
    /// the splice header
    pub header: SpliceInfoHeader,
    /// the command
    pub command: SpliceCommand<'a>,
    /// the descriptor loop
    pub descriptors: SpliceDescriptors<'a>,
    from: Origin<'a>,
}

/// What a section was read from, if it was read. It has no part in `==`.
#[derive(Clone, Copy)]
struct Origin<'a>(Option<&'a [u8]>);

impl PartialEq for Origin<'_> {
    fn eq(&self, _: &Self) -> bool {
        true
    }
}

impl Eq for Origin<'_> {}

impl std::hash::Hash for Origin<'_> {
    fn hash<H: std::hash::Hasher>(&self, _: &mut H) {}
}

impl std::fmt::Debug for Origin<'_> {
    fn fmt(&self, f: &mut std::fmt::Formatter<'_>) -> std::fmt::Result {
        match self.0 {
            Some(bytes) => write!(f, "{} bytes", bytes.len()),
            None => f.write_str("made"),
        }
    }
}

impl<'a> Section<'a> {
    /// A section of these, to be written.
    pub fn new(header: SpliceInfoHeader, command: SpliceCommand<'a>, descriptors: SpliceDescriptors<'a>) -> Self {
        Section { header, command, descriptors, from: Origin(None) }
    }

    /// The time of its command (`SpliceCommand::splice_time`) with the header's adjustment added, where one is specified. Refused with
    /// `Refusal::TooLarge` where either has more than 33 bits.
    pub fn adjusted_time(&self) -> Result<Option<u64>, Refusal> {
        self.command.splice_time().unwrap_or(SpliceTime::Unspecified).adjusted(self.header.pts_adjustment)
    }

    /// Every identifier of the section that was read, in byte order, a MID before its parts: the bytes of a private command, then those of each item.
    /// Places count from the section's first byte.
    pub fn identifiers(&self) -> impl Iterator<Item = Identifier<'a>> + '_ {
        let private = match self.command {
            SpliceCommand::PrivateCommand { private_bytes, .. } => Some(Identifier::of_command(private_bytes, PRIVATE_BYTES_AT)),
            _ => None,
        };
        private.into_iter().chain(self.descriptors.iter().flat_map(|x| x.identifiers().collect::<Vec<_>>()))
    }

    /// Do the two read the same: equal values and bytes, item by item? The header's command length and type are left out: the command tells them.
    pub fn reads_as(&self, other: &Section<'_>) -> bool {
        let SpliceInfoHeader { splice_command_length, splice_command_type, .. } = self.header;
        self.header == SpliceInfoHeader { splice_command_length, splice_command_type, ..other.header }
            && self.command == other.command
            && self.descriptors.reads_as(other.descriptors)
    }
}

/// Reads a whole section, from its table id to its CRC. Refused with the first of 1 to 11 that applies (`Refusal::SectionTooShort` to
/// `Refusal::MalformedCommand`).
pub fn read_section(bytes: &[u8]) -> Result<Section<'_>, Refusal> {
    let s = raw::read_section(bytes, 0);
    match s.refusal {
        0 => Ok(Section {
            header: SpliceInfoHeader::of(&s.header),
            // a command's views count from the section's first byte
            command: SpliceCommand::of(&s.command, &bytes[..(s.payload.at + s.payload.len) as usize], s.payload.at as usize, 0),
            descriptors: SpliceDescriptors::of(bytes, &s.descriptors),
            from: Origin(Some(bytes)),
        }),
        n => Err(Refusal::answered(n, [0; 3])),
    }
}

/// The CRC of ISO/IEC 13818-1, Annex A: 0 of a whole section.
pub fn crc(bytes: &[u8]) -> u32 {
    raw::crc(bytes, 0)
}
