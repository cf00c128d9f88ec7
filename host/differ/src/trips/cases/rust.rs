//! What only the Rust interface can say, and what it says otherwise than words.
use super::{over, until};
use crate::answer::{Command, Item};
use crate::rng::Rng;
use crate::trips::{api, build, draw, flat, Trips};
use scte35::{EncryptionAlgorithm, Refusal, SegmentationTypeId, SegmentationUpidType, SpliceCommand, SpliceDescriptor, SpliceTime};

pub type Tried = fn(&mut Rng, &mut [u8]) -> Result<usize, Refusal>;

fn segmentation(rng: &mut Rng) -> Item {
    until(rng, draw::item, |x| matches!(x, Item::Segmentation { detail: Some(s), .. } if s.upid.kind != 13))
}

fn with_type(rng: &mut Rng, target: &mut [u8], id: SegmentationTypeId) -> Result<usize, Refusal> {
    let item = segmentation(rng);
    let SpliceDescriptor::Segmentation { segmentation_event_id, detail: Some(mut detail) } = api::item(&item) else { unreachable!() };
    detail.segmentation_type_id = id;
    scte35::write_descriptor(&SpliceDescriptor::Segmentation { segmentation_event_id, detail: Some(detail) }, target)
}

fn with_value(rng: &mut Rng, target: &mut [u8], upid: scte35::Upid<'_>) -> Result<usize, Refusal> {
    let item = until(rng, draw::item, |x| matches!(x, Item::Segmentation { detail: Some(s), .. } if s.upid.kind == 0 && s.components.is_none()));
    let SpliceDescriptor::Segmentation { segmentation_event_id, detail: Some(mut detail) } = api::item(&item) else { unreachable!() };
    detail.segmentation_upid = upid;
    scte35::write_descriptor(&SpliceDescriptor::Segmentation { segmentation_event_id, detail: Some(detail) }, target)
}

fn with_header(rng: &mut Rng, target: &mut [u8], change: fn(&mut Rng, &mut scte35::SpliceInfoHeader)) -> Result<usize, Refusal> {
    let (mut header, command) = (api::header(&draw::header(rng)), draw::command(rng, 60));
    change(rng, &mut header);
    let descriptors = build::descriptors(&draw::items(rng, 200)).bytes;
    let section = scte35::Section::new(header, api::command(&command), scte35::SpliceDescriptors::new(&descriptors));
    scte35::write_section(&section, target)
}

fn with_insert(rng: &mut Rng, target: &mut [u8], change: fn(&mut Rng, &mut scte35::SpliceInsert)) -> Result<usize, Refusal> {
    let value = until(rng, |rng| draw::command(rng, 60), |c| matches!(c, Command::Insert { detail: Some(_), .. }));
    let SpliceCommand::SpliceInsert(mut insert) = api::command(&value) else { unreachable!() };
    change(rng, &mut insert);
    scte35::write_command(&SpliceCommand::SpliceInsert(insert), target)
}

const NAMED_TYPES: [u8; 6] = [0x00, 0x01, 0x10, 0x23, 0x34, 0x51];

pub const RUST: [(&str, Refusal, Tried); 20] = [
    ("tier", Refusal::TooLarge, |rng, target| with_header(rng, target, |rng, h| h.tier = rng.between(0x1000, 0xFFFF) as u16)),
    ("pts_adjustment", Refusal::TooLarge, |rng, target| with_header(rng, target, |rng, h| h.pts_adjustment = over(rng, 33))),
    ("private algorithm over 63", Refusal::TooLarge, |rng, target| {
        with_header(rng, target, |rng, h| h.encryption_algorithm = EncryptionAlgorithm::Private(rng.between(64, 255) as u8))
    }),
    ("reserved algorithm over 63", Refusal::TooLarge, |rng, target| {
        with_header(rng, target, |rng, h| h.encryption_algorithm = EncryptionAlgorithm::Reserved(rng.between(64, 255) as u8))
    }),
    ("insert reserved over 127", Refusal::TooLarge, |rng, target| with_insert(rng, target, |rng, i| i.reserved = rng.between(128, 255) as u8)),
    ("over 255 components", Refusal::TooLarge, |rng, target| {
        with_insert(rng, target, |rng, i| {
            let component = scte35::InsertComponent { component_tag: 1, splice_time: SpliceTime::Immediate };
            let count = rng.between(256, 600);
            i.detail.as_mut().expect("not cancelled").splice_mode = scte35::SpliceMode::Components(vec![component; count]);
        })
    }),
    ("over 255 bytes of a UPID", Refusal::TooLarge, |rng, target| {
        let length = rng.between(256, 600);
        let bytes = rng.bytes(length);
        with_value(rng, target, scte35::Upid::Bytes { upid_type: SegmentationUpidType::UserDefinedDeprecated, bytes: &bytes })
    }),
    ("over 7 DTMF characters", Refusal::TooLarge, |rng, target| {
        let length = rng.between(8, 300);
        scte35::write_descriptor(&SpliceDescriptor::Dtmf { preroll: 1, dtmf_chars: &rng.bytes(length) }, target)
    }),
    ("encrypted header", Refusal::Unwritable, |rng, target| with_header(rng, target, |_, h| h.encrypted_packet = true)),
    ("a reserved number that has a name: algorithm", Refusal::Unwritable, |rng, target| {
        with_header(rng, target, |rng, h| h.encryption_algorithm = EncryptionAlgorithm::Reserved(rng.below(4) as u8))
    }),
    ("a reserved number that lies in another range: algorithm", Refusal::Unwritable, |rng, target| {
        with_header(rng, target, |rng, h| {
            let (low, high) = (rng.between(0, 31) as u8, rng.between(32, 63) as u8);
            h.encryption_algorithm = rng.pick(&[EncryptionAlgorithm::Private(low), EncryptionAlgorithm::Reserved(high)]);
        })
    }),
    ("a reserved number that has a name: segmentation type", Refusal::Unwritable, |rng, target| {
        let id = rng.pick(&NAMED_TYPES);
        with_type(rng, target, SegmentationTypeId::Reserved(id))
    }),
    ("a reserved number that has a name: UPID type", Refusal::Unwritable, |rng, target| {
        let (kind, bytes): (u8, &[u8]) = rng.pick(&[(0, &[]), (1, &[7]), (2, b"ABCD0001"), (8, &[0; 8]), (13, &[1, 0]), (15, b"a:")]);
        with_value(rng, target, scte35::Upid::Bytes { upid_type: SegmentationUpidType::Reserved(kind), bytes })
    }),
    ("a UPID that is not of its type's case", Refusal::Unwritable, |rng, target| {
        let text = SegmentationUpidType::AdID;
        let wrong = [
            scte35::Upid::Bytes { upid_type: SegmentationUpidType::NotUsed, bytes: &[] },
            scte35::Upid::Bytes { upid_type: text, bytes: b"ABCD0001000H" },
            scte35::Upid::Bytes { upid_type: SegmentationUpidType::EIDR, bytes: &[1; 12] },
            scte35::Upid::Bytes { upid_type: SegmentationUpidType::MID, bytes: &[1, 0] },
            scte35::Upid::Text { upid_type: SegmentationUpidType::TI, text: "ABCD0001" },
            scte35::Upid::Text { upid_type: SegmentationUpidType::URI, text: "a:" },
        ];
        let k = rng.below(wrong.len());
        with_value(rng, target, wrong[k].clone())
    }),
    ("UPID type 5", Refusal::Unwritable, |rng, target| {
        with_value(rng, target, scte35::Upid::Bytes { upid_type: SegmentationUpidType::ISANDeprecated, bytes: &[5; 8] })
    }),
    ("empty UPID other than None", Refusal::Unwritable, |rng, target| {
        let upid_type = SegmentationUpidType::from_type(rng.pick(&[1, 9, 11, 12, 14, 15, 16, 255]));
        with_value(rng, target, scte35::Upid::Bytes { upid_type, bytes: &[] })
    }),
    ("an immediate time in a time signal", Refusal::Unwritable, |_, target| {
        scte35::write_command(&SpliceCommand::TimeSignal(SpliceTime::Immediate), target)
    }),
    ("reserved descriptor over 250 bytes", Refusal::ResultTooLong, |rng, target| {
        let length = rng.between(251, 5000);
        let private_bytes = &rng.bytes(length);
        scte35::write_descriptor(&SpliceDescriptor::Reserved { tag: 4, identifier: *b"CUEI", private_bytes }, target)
    }),
    ("a loop that is not canonical", Refusal::LoopNotCanonical, |rng, target| {
        let descriptors = scte35::SpliceDescriptors::new(&[0, 9, b'C', b'U', b'E', b'I', 1, 2, 3, 4, 5]);
        let section = scte35::Section::new(api::header(&draw::header(rng)), SpliceCommand::SpliceNull, descriptors);
        scte35::write_section(&section, target)
    }),
    ("no target", Refusal::TargetTooShort, |rng, _| scte35::write_descriptor(&api::item(&draw::item(rng)), &mut [])),
];

impl Trips {
    pub fn rust_case(&mut self, (name, refusal, tried): (&'static str, Refusal, Tried)) {
        let number = u64::from(refusal.number());
        let mut rng = Rng::new(self.rng.next());
        let room = if refusal == Refusal::TargetTooShort { 0 } else { 4200 };
        self.written(|| name.to_string(), Err(number), room, |target| flat(tried(&mut rng, target)));
        self.count("cases of the Rust interface", format!("{number} {name}"));
    }
}
