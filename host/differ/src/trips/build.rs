//! The canonical bytes of a value, by the layout of the standard. It shares nothing with the writers under test, nor do its sections' CRCs.
use crate::answer::*;
use crate::bits::Bits;
use mpeg2ts_reader::mpegts_crc::sum32;

fn splice_time(bits: Bits, t: Time) -> Bits {
    match t {
        Time::Immediate => bits,
        Time::Unspecified => bits.flag(false).reserved(7),
        Time::At(ticks) => bits.flag(true).reserved(6).put(33, ticks),
    }
}

/// Has the insert its immediate flag set? One by components with none of them has not.
fn immediate(mode: &SpliceMode) -> bool {
    match mode {
        SpliceMode::Program(t) => *t == Time::Immediate,
        SpliceMode::Components(list) => list.first().is_some_and(|(_, t)| *t == Time::Immediate),
    }
}

fn insert(bits: Bits, x: &Insert) -> Bits {
    let program = matches!(x.mode, SpliceMode::Program(_));
    let mut bits = bits.flag(x.out).flag(program).flag(x.duration.is_some()).flag(immediate(&x.mode)).reserved(4);
    match &x.mode {
        SpliceMode::Program(t) => bits = splice_time(bits, *t),
        SpliceMode::Components(list) => {
            bits = bits.put(8, list.len() as u64);
            for (tag, t) in list {
                bits = splice_time(bits.put(8, (*tag).into()), *t);
            }
        }
    }
    if let Some((automatic, ticks)) = x.duration {
        bits = bits.flag(automatic).reserved(6).put(33, ticks);
    }
    bits.put(16, x.program_id.into()).put(8, x.avail.into()).put(8, x.expected.into())
}

/// A command's type and payload.
pub fn command(c: &Command) -> (u8, Bits) {
    let bits = Bits::default();
    match c {
        Command::Refused(n) => unreachable!("a refused command ({n}) is not built"),
        Command::Null => (0x00, bits),
        Command::Bandwidth => (0x07, bits),
        Command::Private { identifier, bytes } => (0xFF, bits.put(32, (*identifier).into()).all(bytes)),
        Command::TimeSignal(t) => (0x06, splice_time(bits, *t)),
        Command::Insert { event, detail, .. } => {
            let bits = bits.put(32, (*event).into()).flag(detail.is_none()).reserved(7);
            (0x05, detail.iter().fold(bits, insert))
        }
    }
}

fn segmentation(bits: Bits, s: &Segmentation) -> Bits {
    let mut bits = bits.flag(s.components.is_none()).flag(s.duration.is_some()).flag(s.restrictions.is_none());
    bits = match &s.restrictions {
        None => bits.reserved(5),
        Some(r) => bits.flag(r.web).flag(r.no_blackout).flag(r.archive).put(2, r.device.into()),
    };
    if let Some(list) = &s.components {
        bits = bits.put(8, list.len() as u64);
        for (tag, offset) in list {
            bits = bits.put(8, (*tag).into()).reserved(7).put(33, *offset);
        }
    }
    if let Some(ticks) = s.duration {
        bits = bits.put(40, ticks);
    }
    // an ISAN of eight bytes is of the older type
    let kind = if s.upid.kind == 6 && s.upid.bytes.len() == 8 { 5 } else { s.upid.kind };
    bits = bits.put(8, kind.into()).put(8, s.upid.bytes.len() as u64).all(&s.upid.bytes);
    bits = bits.put(8, s.type_id.into()).put(8, s.segment.into()).put(8, s.expected.into());
    match s.sub_segments {
        None => bits,
        Some((number, expected)) => bits.put(8, number.into()).put(8, expected.into()),
    }
}

/// A descriptor's tag, identifier and payload.
fn payload(x: &Item) -> (u8, [u8; 4], Bits) {
    let bits = Bits::default();
    match x {
        Item::Refused(r) => unreachable!("a refused item ({r:?}) is not built"),
        Item::Avail(id) => (0, *b"CUEI", bits.put(32, (*id).into())),
        Item::Dtmf { preroll, chars } => (1, *b"CUEI", bits.put(8, (*preroll).into()).put(3, chars.len() as u64).reserved(5).all(chars)),
        Item::Segmentation { event, detail } => {
            let bits = bits.put(32, (*event).into()).flag(detail.is_none()).reserved(7);
            (2, *b"CUEI", detail.iter().fold(bits, segmentation))
        }
        Item::Time { seconds, nanoseconds, offset } => (3, *b"CUEI", bits.put(48, *seconds).put(32, (*nanoseconds).into()).put(16, (*offset).into())),
        Item::Reserved { tag, identifier, bytes } => (*tag, *identifier, bits.all(bytes)),
    }
}

/// A whole descriptor; none where its length would be over 254.
pub fn descriptor(x: &Item) -> Option<Bits> {
    let (tag, identifier, payload) = payload(x);
    let length = 4 + payload.bytes.len();
    (length <= 254).then(|| Bits::default().put(8, tag.into()).put(8, length as u64).all(&identifier).join(&payload))
}

/// Descriptors one after another.
pub fn descriptors(items: &[Item]) -> Bits {
    items.iter().fold(Bits::default(), |bits, x| bits.join(&descriptor(x).expect("a descriptor of at most 256 bytes")))
}

/// A whole section around a command's payload and a loop, with lengths that fit and a right CRC. `spare` stands before the CRC.
pub fn around(h: &Header, kind: u8, payload: &Bits, descriptors: &Bits, spare: &[u8]) -> Bits {
    let size = 3 + 11 + payload.bytes.len() + 2 + descriptors.bytes.len() + spare.len() + 4;
    let bits = Bits::default()
        .put(8, 0xFC)
        .put(4, 0b0011)
        .put(12, size as u64 - 3)
        .put(8, h.protocol_version.into())
        .flag(h.encrypted)
        .put(6, h.algorithm.into())
        .put(33, h.pts_adjustment)
        .put(8, h.cw_index.into())
        .put(12, h.tier.into())
        .put(12, payload.bytes.len() as u64)
        .put(8, kind.into())
        .join(payload)
        .put(16, descriptors.bytes.len() as u64)
        .join(descriptors)
        .all(spare);
    let crc = sum32(&bits.bytes);
    bits.put(32, crc.into())
}

/// A canonical section around a loop; the header's command length and type are those of the command. None where it would be over 4,096 bytes.
pub fn section(h: &Header, c: &Command, descriptors: &Bits) -> Option<Bits> {
    let (kind, payload) = command(c);
    (20 + payload.bytes.len() + descriptors.bytes.len() <= 4096).then(|| around(h, kind, &payload, descriptors, &[]))
}
