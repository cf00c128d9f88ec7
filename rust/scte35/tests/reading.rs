//! The worked rows of the rules and the standard's samples, through the Rust interface.
use scte35::*;

fn unhex(digits: &str) -> Vec<u8> {
    let digits: String = digits.split_whitespace().collect();
    (0..digits.len() / 2).map(|i| u8::from_str_radix(&digits[2 * i..2 * i + 2], 16).unwrap()).collect()
}

fn items(bytes: &[u8]) -> Vec<Result<SpliceDescriptor<'_>, Refusal>> {
    SpliceDescriptors::new(bytes).into_iter().map(|x| x.item).collect()
}

fn refused(number: u64, values: [u64; 3]) -> Refusal {
    Refusal::from_words(number, values).expect("a number of a refusal")
}

fn lacks(expected: u64, actual: u64) -> Refusal {
    refused(21, [expected, actual, 0])
}

fn step(bytes: &[u8], offset: usize) -> (Option<Result<SpliceDescriptor<'_>, Refusal>>, usize) {
    let step = read_item(SpliceDescriptors::new(bytes), offset);
    if let Some(item) = &step.item {
        assert_eq!((item.offset, item.offset + item.len), (offset, step.next.max(offset)));
    }
    (step.item.map(|x| x.item), step.next)
}

const CUEI: &str = "43 55 45 49";

#[test]
fn loops() {
    // rows a to g
    assert_eq!(items(&[]), vec![]);
    assert_eq!(items(&unhex(&format!("00 04 {CUEI}"))), vec![Err(lacks(4, 0))]);
    assert_eq!(items(&unhex(&format!("00 03 {CUEI}"))), vec![Err(lacks(6, 5)), Err(lacks(2, 0))]);
    let mut d = unhex(&format!("09 FE {CUEI}"));
    d.resize(256, 7);
    let reserved = SpliceDescriptor::Reserved { tag: 9, identifier: *b"CUEI", private_bytes: &[7; 250] };
    assert_eq!(items(&d), vec![Ok(reserved)]);
    d[1] = 255;
    assert_eq!(items(&d), vec![Err(lacks(257, 0))]);
    d.push(7);
    assert_eq!(items(&d), vec![Err(refused(22, [0; 3]))]);
    let dtmf = unhex(&format!("01 07 {CUEI} B1 3F 34"));
    assert_eq!(items(&dtmf), vec![Ok(SpliceDescriptor::Dtmf { preroll: 177, dtmf_chars: &[0x34] })]);
}

#[test]
fn steps() {
    let bytes = unhex(&format!("00 08 {CUEI} 00 00 01 35 05 02 AA BB 09 00 00"));
    assert_eq!(step(&bytes, 0), (Some(Ok(SpliceDescriptor::Avail { provider_avail_id: 309 })), 10));
    assert_eq!(step(&bytes, 10), (Some(Err(lacks(6, 4))), 14));
    assert_eq!(step(&bytes, 14), (Some(Err(lacks(2, 0))), 17));
    for offset in [17, 18, usize::MAX] {
        assert_eq!(step(&bytes, offset), (None, 17));
    }
    assert_eq!(step(&[0; 4077], 5000), (Some(Err(Refusal::InputTooLong)), 4077));
    assert_eq!(items(&[0; 4077]), vec![Err(Refusal::InputTooLong)]);
    // the end stays the end
    let mut over = SpliceDescriptors::new(&bytes).into_iter();
    assert_eq!(over.by_ref().count(), 3);
    assert_eq!((over.next(), over.offset()), (None, 17));
}

#[test]
fn identifiers() {
    // rows h, i, j
    let read = |bytes| read_upid(SegmentationUpidType::MID, bytes);
    let Ok(Upid::Mid(mid)) = read(&[13, 2, 13, 0]) else { panic!("a MID") };
    let parts: Vec<_> = mid.parts().iter().map(|p| (p.upid_type, p.level, p.start, p.bytes)).collect();
    assert_eq!(parts, vec![(SegmentationUpidType::MID, 1, 2, &[13, 0][..]), (SegmentationUpidType::MID, 2, 4, &[])]);
    assert_eq!(read(&[0, 0]), Err(refused(23, [0; 3])));
    assert_eq!(read(&[8, 3, 1, 2]), Err(lacks(3, 2)));
    assert_eq!(read(&[8]), Err(lacks(1, 0)));
    // text, lengths, what is held by value
    let text = read_upid(SegmentationUpidType::AdID, b"ABCD0001000H");
    assert_eq!(text, Ok(Upid::Text { upid_type: SegmentationUpidType::AdID, text: "ABCD0001000H" }));
    let broken = read_upid(SegmentationUpidType::ISCIDeprecated, b"ABCD\xFF234");
    assert_eq!(broken, Err(refused(24, [2, 0, 8])));
    let short = read_upid(SegmentationUpidType::ISAN, &[0; 8]);
    assert_eq!(short, Err(refused(25, [6, 12, 8])));
    let isan = read_upid(SegmentationUpidType::ISANDeprecated, &[1; 8]);
    assert_eq!(isan, Ok(Upid::Bytes { upid_type: SegmentationUpidType::ISAN, bytes: &[1; 8] }));
    assert_eq!(read_upid(SegmentationUpidType::EIDR, &[2; 12]), Ok(Upid::Eidr([2; 12])));
    assert_eq!(read_upid(SegmentationUpidType::URI, &[]), Ok(Upid::None));
    assert_eq!(read_upid(SegmentationUpidType::Reserved(200), &[3; 256]), Err(Refusal::InputTooLong));
}

#[test]
fn commands() {
    // rows k, l, m
    let signal = |bytes| read_command(SpliceCommandType::TimeSignal, bytes);
    assert_eq!(signal(&[0xFF; 5]), Ok(SpliceCommand::TimeSignal(SpliceTime::At(8_589_934_591))));
    assert_eq!(signal(&[0x7F]), Ok(SpliceCommand::TimeSignal(SpliceTime::Unspecified)));
    assert_eq!(signal(&[]), Err(Refusal::MalformedCommand));
    let [one, other] = [0x0F, 0x1F].map(|flags| [0, 0, 0, 1, 0x7F, flags, 0, 0, 0, 0, 0]);
    let insert = |bytes| read_command(SpliceCommandType::SpliceInsert, bytes);
    assert_eq!(insert(&one), insert(&other));
    let components = [0, 0, 0, 9, 0x7F, 0x0F, 2, 5, 0x7F, 6, 0xFE, 0, 0, 0, 1, 0, 3, 4, 5];
    let Ok(SpliceCommand::SpliceInsert(SpliceInsert { detail: Some(detail), .. })) = insert(&components) else { panic!("an insert") };
    let tagged = |component_tag, splice_time| InsertComponent { component_tag, splice_time };
    assert_eq!(detail.splice_mode, SpliceMode::Components(vec![tagged(5, SpliceTime::Unspecified), tagged(6, SpliceTime::At(1))]));
    assert_eq!((detail.unique_program_id, detail.avail_num, detail.avails_expected), (3, 4, 5));
    assert_eq!(read_command(SpliceCommandType::SpliceSchedule, &[]), Err(Refusal::UnknownCommand));
}

#[test]
fn segmentation() {
    // row n, and a descriptor with all of its parts
    let framed = |payload: &[u8]| [&[2, 4 + payload.len() as u8][..], b"CUEI", payload].concat();
    let plain = unhex("00 00 00 2A 7F BF 00 00 10 01 01");
    let detail = |bytes: &[u8]| match items(bytes).remove(0) {
        Ok(SpliceDescriptor::Segmentation { segmentation_event_id: 42, detail: Some(d) }) => Ok((d.segmentation_type_id, d.sub_segments)),
        Err(Refusal::NotEnoughData { expected, actual, .. }) => Err((expected, actual)),
        other => panic!("{other:?}"),
    };
    assert_eq!(detail(&framed(&plain)), Ok((SegmentationTypeId::ProgramStart, None)));
    assert_eq!(detail(&framed(&[&plain[..], &[1]].concat())), Err((1, 0)));
    let subs = SubSegments { sub_segment_num: 1, sub_segments_expected: 2 };
    assert_eq!(detail(&framed(&[&plain[..], &[1, 2]].concat())), Ok((SegmentationTypeId::ProgramStart, Some(subs))));
    let full = framed(&unhex("00 00 00 07 7F 55 01 09 FF 00 00 00 05 00 00 00 00 63 0A 0C 01 02 03 04 05 06 07 08 09 0A 0B 0C 34 02 03"));
    let Ok(SpliceDescriptor::Segmentation { detail: Some(d), .. }) = items(&full).remove(0) else { panic!("a segmentation") };
    assert_eq!(d.components, Some(vec![SegmentationComponent { component_tag: 9, pts_offset: 4_294_967_301 }]));
    assert_eq!(d.segmentation_duration, Some(99));
    assert_eq!(d.segmentation_upid, Upid::Eidr([1, 2, 3, 4, 5, 6, 7, 8, 9, 10, 11, 12]));
    let allowed = DeliveryRestrictions {
        web_delivery_allowed: true,
        no_regional_blackout: false,
        archive_allowed: true,
        device_restrictions: DeviceRestrictions::RestrictGroup1,
    };
    assert_eq!(d.delivery_restrictions, Some(allowed));
    assert_eq!((d.segmentation_type_id, d.segment_num, d.segments_expected), (SegmentationTypeId::ProviderPlacementOpportunityStart, 2, 3));
}

#[test]
fn sections() {
    let sample = unhex("FC302F000000000000FFFFF014054800008F7FEFFE7369C02EFE0052CCF500000000000A0008435545490000013562DBA30A");
    let section = read_section(&sample).expect("a sample of the standard");
    assert_eq!((section.header.cw_index, section.header.tier), (0xFF, 0xFFF));
    assert_eq!(section.header.encryption_algorithm, EncryptionAlgorithm::None);
    let SpliceCommand::SpliceInsert(SpliceInsert { splice_event_id: 1_207_959_695, reserved: 127, detail: Some(detail) }) = &section.command else {
        panic!("an insert")
    };
    assert_eq!(detail.network_indicator, NetworkIndicator::Out);
    assert_eq!(detail.splice_mode, SpliceMode::Program(SpliceTime::At(1_936_310_318)));
    assert_eq!(detail.duration, Some(SpliceDuration { return_mode: ReturnMode::Automatic, duration: 5_426_421 }));
    assert_eq!(items(section.descriptors.bytes()), vec![Ok(SpliceDescriptor::Avail { provider_avail_id: 309 })]);
    assert_eq!(crc(&sample), 0);
    // refusals, by number
    let number = |bytes: &[u8]| read_section(bytes).map_err(Refusal::number).err();
    assert_eq!([Refusal::SectionTooShort, Refusal::MalformedCommand].map(Refusal::number), [1, 11]);
    assert_eq!(number(&sample[..2]), Some(1));
    assert_eq!(number(&[0; 4097]), Some(2));
    assert_eq!(number(&[0; 40]), Some(3));
    assert_eq!(number(&sample[..40]), Some(4));
    let mut private = unhex("FC 30 00 00 00 00 00 00 00 00 FF F0 06 FF 00 00 00 01 AA BB 00 00");
    private.extend(crc(&private).to_be_bytes());
    let read = read_section(&private).expect("a private command");
    assert_eq!(read.command, SpliceCommand::PrivateCommand { identifier: 1, private_bytes: &[0xAA, 0xBB] });
}

#[test]
fn headers_and_times() {
    assert_eq!(read_header(&[0; 10]), Err(Refusal::NoHeader));
    let h = read_header(&unhex("01 C3 00 00 00 05 06 AB CD EF FF 99")).expect("eleven bytes");
    assert_eq!((h.protocol_version, h.encrypted_packet, h.pts_adjustment, h.cw_index), (1, true, 4_294_967_301, 6));
    assert_eq!((h.tier, h.splice_command_length), (0xABC, 0xDEF));
    assert_eq!((h.encryption_algorithm, h.splice_command_type), (EncryptionAlgorithm::Private(33), SpliceCommandType::PrivateCommand));
    // the carry out of 33 bits is ignored: every pair of boundaries, by the C function and by the method
    let boundaries = [0, 1, 1 << 32, (1 << 33) - 1, 1 << 33];
    for time in boundaries {
        for adjustment in boundaries {
            let sum = (time < 1 << 33 && adjustment < 1 << 33).then_some((time + adjustment) % (1 << 33));
            let raw = raw::adjust_time(3, time, adjustment);
            assert_eq!((raw.refusal, raw.ticks), sum.map_or((32, 0), |sum| (0, sum)), "{time} and {adjustment}");
            assert_eq!(SpliceTime::At(time).adjusted(adjustment), sum.map(Some).ok_or(Refusal::TooLarge), "{time} and {adjustment}");
        }
    }
    assert_eq!(SpliceTime::At(8_589_934_591).adjusted(1), Ok(Some(0)));
    assert_eq!(SpliceTime::Unspecified.adjusted(1), Ok(None));
    assert_eq!(SpliceTime::Immediate.adjusted(1), Ok(None));
    assert_eq!(SpliceTime::At(1 << 33).adjusted(0), Err(Refusal::TooLarge));
    assert_eq!(SpliceTime::Unspecified.adjusted(1 << 33), Err(Refusal::TooLarge));
    assert_eq!(raw::adjust_time(2, 1 << 40, 0).refusal, 32);
    // of a section: of a time signal and of an insert by program
    let mut header = SpliceInfoHeader::default();
    header.pts_adjustment = 5;
    let section = |command| Section::new(header, command, SpliceDescriptors::new(&[]));
    assert_eq!(section(SpliceCommand::TimeSignal(SpliceTime::At(7))).adjusted_time(), Ok(Some(12)));
    assert_eq!(section(SpliceCommand::TimeSignal(SpliceTime::At(1 << 33))).adjusted_time(), Err(Refusal::TooLarge));
    assert_eq!(section(SpliceCommand::TimeSignal(SpliceTime::Unspecified)).adjusted_time(), Ok(None));
    assert_eq!(section(SpliceCommand::SpliceNull).adjusted_time(), Ok(None));
    let payload = unhex("4800008F 7F EF FE7369C02E FE0052CCF5 0000 00 00");
    let mut sample = section(read_command(SpliceCommandType::SpliceInsert, &payload).expect("an insert"));
    assert_eq!(sample.adjusted_time(), Ok(Some(1_936_310_323)));
    sample.header.pts_adjustment = 1 << 33;
    assert_eq!(sample.adjusted_time(), Err(Refusal::TooLarge));
}

#[test]
fn numbers() {
    for n in 0..=255 {
        assert_eq!(EncryptionAlgorithm::from_id(n).id(), n);
        assert_eq!(SpliceCommandType::from_id(n).id(), n);
        assert_eq!(SegmentationUpidType::from_type(n).id(), n);
        assert_eq!(SegmentationTypeId::from_id(n).id(), n);
        assert_eq!(NetworkIndicator::from_flag(n).map(NetworkIndicator::flag), if n < 2 { Ok(n) } else { Err(Refusal::NotInField) });
        assert_eq!(ReturnMode::from_flag(n).map(ReturnMode::flag), if n < 2 { Ok(n) } else { Err(Refusal::NotInField) });
        assert_eq!(DeviceRestrictions::from_bits(n).map(DeviceRestrictions::bits), if n < 4 { Ok(n) } else { Err(Refusal::NotInField) });
    }
    // which name has which number: host/layout compares that with the Rattle sources; these are the flags of a reading
    assert_eq!(NetworkIndicator::from_flag(1), Ok(NetworkIndicator::Out));
    assert_eq!(ReturnMode::from_flag(1), Ok(ReturnMode::Automatic));
    assert_eq!(DeviceRestrictions::from_bits(3), Ok(DeviceRestrictions::None));
}

#[test]
fn the_archive_is_the_headers() {
    assert_eq!(raw::abi(), raw::ABI);
}

/// The C functions take an offset: what stands before it is not read, and views count from it.
#[test]
fn offsets() {
    let sample = unhex("FC302F000000000000FFFFF014054800008F7FEFFE7369C02EFE0052CCF500000000000A0008435545490000013562DBA30A");
    for before in [0, 1, 3, 5000] {
        let long = [vec![0x55; before], sample.clone()].concat();
        assert_eq!(raw::read_section(&long, before), raw::read_section(&sample, 0));
        assert_eq!(raw::read_header(&long, before + 3), raw::read_header(&sample[3..], 0));
        assert_eq!(raw::read_command(5, &long, before + 14), raw::read_command(5, &sample[14..], 0));
        assert_eq!(raw::read_insert_components(&long, before + 14), raw::read_insert_components(&sample[14..], 0));
        assert_eq!(raw::read_upid(13, &long, before + 40), raw::read_upid(13, &sample[40..], 0));
        assert_eq!(raw::crc(&long, before), 0);
        for past in [long.len(), long.len() + 1, usize::MAX] {
            assert_eq!(raw::read_section(&long, past), raw::read_section(&[], 0));
            assert_eq!(raw::read_upid(13, &long, past), raw::read_upid(13, &[], 0));
            assert_eq!(raw::crc(&long, past), 0xFFFF_FFFF);
        }
    }
}

/// Every identifier of a section, with its place in it: the incident's MID, an EIDR behind components and a duration, DTMF, an ISAN of 8 bytes, a reserved descriptor and private
/// bytes.
#[test]
fn identifiers_and_places() {
    let sample =
        unhex("FC303F000000000000FFFFF00506FE0000000000290227435545490000002A7FBF0D1808081122334455667788030C414243443132333435363738100101A86A17BC");
    let section = read_section(&sample).expect("the incident's cue");
    let found: Vec<_> = section.identifiers().map(|i| (i.kind, i.item, i.part, i.level, i.upid_type.map(|t| t.id()), i.at, i.len())).collect();
    let (upid, part) = (IdentifierKind::Upid, IdentifierKind::Part);
    assert_eq!(found, [(upid, Some(0), 0, 0, Some(13), 35, 24), (part, Some(0), 1, 1, Some(8), 37, 8), (part, Some(0), 2, 1, Some(3), 47, 12)]);
    for i in section.identifiers() {
        assert_eq!(i.bytes, &sample[i.at..][..i.len()]);
        assert_eq!((i.written_type().map(|t| t.id()), i.len()), (Some(sample[i.at - 2]), sample[i.at - 1].into()));
    }
    assert_eq!(section.identifiers().last().and_then(|i| i.text().map(str::to_string)), Some("ABCD12345678".to_string()));

    let descriptors = [
        unhex(&format!("01 08 {CUEI} B1 5F 34 35")),
        unhex(&format!("02 27 {CUEI} 00 00 00 07 7F 55 01 09 FF 00 00 00 05 00 00 00 00 63 0A 0C 01 02 03 04 05 06 07 08 09 0A 0B 0C 34 02 03")),
        unhex(&format!("02 17 {CUEI} 00 00 00 07 7F BF 05 08 01 02 03 04 05 06 07 08 34 02 03")),
        unhex(&format!("02 1B {CUEI} 00 00 00 07 7F BF 0D 0C 05 08 01 02 03 04 05 06 07 08 09 00 34 02 03")),
        unhex("09 06 41 42 43 44 07 08"),
        unhex(&format!("02 0F {CUEI} 00 00 00 07 7F BF 03 00 34 02 03")),
        unhex(&format!("00 03 {CUEI}")),
    ]
    .concat();
    let mut whole = unhex("FC 30 00 00 00 00 00 00 00 00 FF F0 06 FF 00 00 00 01 AA BB 00");
    whole.push(descriptors.len() as u8);
    whole.extend(&descriptors);
    whole.extend(crc(&whole).to_be_bytes());
    let section = read_section(&whole).expect("closed by its CRC");
    assert_eq!((section.descriptors.at(), section.descriptors.bytes()), (22, &descriptors[..]));
    let found: Vec<_> = section.identifiers().collect();
    for i in &found {
        assert_eq!(i.bytes, &whole[i.at..][..i.len()]);
        if let Some(written) = i.written_type() {
            assert_eq!((written.id(), i.len()), (whole[i.at - 2], whole[i.at - 1].into()));
            assert_eq!(
                read_upid(written, i.bytes).map(|u| u.upid_type()),
                if i.len() == 0 { Ok(SegmentationUpidType::NotUsed) } else { Ok(i.upid_type.unwrap()) }
            );
        }
    }
    let kinds: Vec<_> = found.iter().map(|i| (i.kind, i.upid_type.map(|t| t.id()), i.written_type().map(|t| t.id()), i.len())).collect();
    let expected = [
        (IdentifierKind::PrivateBytes, None, None, 2),
        (IdentifierKind::DtmfChars, None, None, 2),
        (upid, Some(10), Some(10), 12),
        (upid, Some(6), Some(5), 8),
        (upid, Some(13), Some(13), 12),
        (part, Some(6), Some(5), 8),
        (part, Some(9), Some(9), 0),
        (IdentifierKind::ReservedBytes, None, None, 2),
    ];
    assert_eq!(kinds, expected);
    // of a loop alone, places count from its first byte
    let alone: Vec<_> = SpliceDescriptors::new(&descriptors).iter().flat_map(|x| x.identifiers().collect::<Vec<_>>()).collect();
    assert_eq!(alone.iter().map(|i| i.at + 22).collect::<Vec<_>>(), found[1..].iter().map(|i| i.at).collect::<Vec<_>>());
}

#[test]
fn refusals_in_words() {
    assert_eq!(lacks(4, 0).to_string(), "not enough data: 4 expected, 0 there (refusal 21)");
    assert_eq!(refused(24, [3, 26, 12]).to_string(), "UPID text that is not UTF-8: 12 bytes at 26, of type 3 (refusal 24)");
    assert_eq!(refused(25, [6, 12, 8]).to_string(), "UPID of wrong length: 8 bytes of type 6, 12 expected (refusal 25)");
    assert_eq!(Refusal::OtherTable.to_string(), "the first byte is not 0xFC (refusal 3)");
    // a number, its values and its name stand for one refusal
    let numbers: Vec<u64> = (0..100).filter(|n| Refusal::from_words(*n, [0; 3]).is_some()).collect();
    assert_eq!(numbers, (1..=12).chain(21..=25).chain(31..=36).chain(41..=41).chain(51..=53).chain(61..=63).chain(71..=75).collect::<Vec<_>>());
    for n in numbers {
        let refusal = refused(n, [2, 3, 4]);
        assert_eq!(u64::from(refusal.number()), n);
        assert_eq!(refused(n, refusal.values()), refusal);
        assert!(format!("{refusal:?}").starts_with(refusal.name()));
    }
    assert_eq!(Refusal::from_words(u64::MAX, [0; 3]), None);
}
