//! The writers, through the Rust interface: the standard's samples back to themselves, the worked rows, and each refusal by its name.
use scte35::*;

fn unhex(digits: &str) -> Vec<u8> {
    let digits: String = digits.split_whitespace().collect();
    (0..digits.len() / 2).map(|i| u8::from_str_radix(&digits[2 * i..2 * i + 2], 16).unwrap()).collect()
}

const SAMPLES: [&str; 4] = [
    "FC3034000000000000FFFFF00506FE72BD0050001E021C435545494800008E7FCF0001A599B00808000000002CA0A18A3402009AC9D17E",
    "FC302F000000000000FFFFF014054800008F7FEFFE7369C02EFE0052CCF500000000000A0008435545490000013562DBA30A",
    "FC302F000000000000FFFFF00506FE746290A000190217435545494800008E7F9F0808000000002CA0A18A350200A9CC6758",
    "FC3011 000000000000FF FFF000 00 0000 00000000",
];

/// The section with a CRC that fits it.
fn closed(mut section: Vec<u8>) -> Vec<u8> {
    section.truncate(section.len() - 4);
    section.extend(crc(&section).to_be_bytes());
    section
}

fn back(bytes: &[u8]) -> Result<Vec<u8>, Refusal> {
    let mut target = [0; MAX_SECTION];
    let section = read_section(bytes)?;
    let length = section.write_back(&mut target)?;
    assert_eq!(section.write_back_to_vec(), Ok(target[..length].to_vec()));
    Ok(target[..length].to_vec())
}

/// The section with another loop.
fn around<'a>(section: &Section<'a>, descriptors: &'a [u8]) -> Section<'a> {
    Section::new(section.header, section.command.clone(), SpliceDescriptors::new(descriptors))
}

#[test]
fn samples_go_back_to_themselves() {
    for sample in SAMPLES {
        let sample = closed(unhex(sample));
        assert!(is_canonical_section(&sample));
        assert_eq!(back(&sample).expect("written"), sample);
        // a reserved bit cleared, a spare byte put in: the same reading, but not canonical
        let mut other = sample.clone();
        other[1] |= 0x80;
        let other = closed(other);
        assert!(!is_canonical_section(&other));
        assert_eq!(back(&other).expect("written"), sample);
        assert!(read_section(&other).expect("accepted").reads_as(&read_section(&sample).expect("accepted")));
        let mut longer = sample.clone();
        longer[2] += 1;
        longer.insert(longer.len() - 4, 0);
        let longer = closed(longer);
        assert!(!is_canonical_section(&longer));
        assert_eq!(back(&longer).expect("written"), sample);
    }
}

#[test]
fn readings() {
    let [first, second] = [SAMPLES[0], SAMPLES[1]].map(|s| closed(unhex(s)));
    let [first, second] = [&first, &second].map(|s| read_section(s).expect("a sample of the standard"));
    // a spare byte in the loop's descriptor
    let spare = unhex("00 09 43 55 45 49 00 00 01 35 FF");
    let mut spared = around(&second, &spare);
    assert!(spared != second && spared.reads_as(&second));
    spared.header.splice_command_length = 9;
    spared.header.splice_command_type = SpliceCommandType::SpliceNull;
    assert!(spared.reads_as(&second) && second.reads_as(&spared));
    spared.header.tier = 1;
    assert!(!spared.reads_as(&second));
    assert!(!Section::new(second.header, first.command.clone(), second.descriptors).reads_as(&second));
    for other in [&[][..], &unhex("00 08 43 55 45 49 00 00 01 36"), &[second.descriptors.bytes(); 2].concat()] {
        assert!(!around(&second, other).reads_as(&second));
    }
    // a refused item is not written
    let cut = around(&second, &spare[..9]);
    assert_eq!(cut.write_back(&mut [0; MAX_SECTION]), Err(Refusal::Unwritable));
    assert_eq!(second.write_back(&mut [0; 49]), Err(Refusal::TargetTooShort));
}

#[test]
fn loops() {
    let avail = |provider_avail_id| SpliceDescriptor::Avail { provider_avail_id };
    let bytes = unhex("00 08 43 55 45 49 00 00 00 01 00 08 43 55 45 49 00 00 00 02");
    let mut target = [0x55; 24];
    assert_eq!(write_loop(&[avail(1), avail(2)], &mut target), Ok(20));
    assert_eq!(target[..20], bytes);
    assert_eq!(target[20..], [0x55; 4]);
    assert_eq!(write_loop(&[], &mut []), Ok(0));
    assert_eq!(write_loop_to_vec(&[avail(1), avail(2)]), Ok(bytes.clone()));
    // more than a section has room for: as a loop alone it is written
    assert_eq!(write_loop_to_vec(&vec![avail(1); 500]).map(|all| all.len()), Ok(5000));
    // refused: no byte is written, not even of those before the refused one
    let mut target = [0x55; 24];
    let long = SpliceDescriptor::Dtmf { preroll: 1, dtmf_chars: b"12345678" };
    assert_eq!(write_loop(&[avail(1), long], &mut target), Err(Refusal::TooLarge));
    assert_eq!(write_loop(&[avail(1), avail(2)], &mut target[..19]), Err(Refusal::TargetTooShort));
    assert_eq!(target, [0x55; 24]);
}

fn write(command: &SpliceCommand<'_>) -> Result<Vec<u8>, Refusal> {
    let mut target = [0x55; 40];
    let length = write_command(command, &mut target)?;
    assert!(target[length..].iter().all(|b| *b == 0x55));
    assert_eq!(write_command_to_vec(command).as_deref(), Ok(&target[..length]));
    Ok(target[..length].to_vec())
}

#[test]
fn commands() {
    // rows k, l, m
    assert_eq!(write(&SpliceCommand::TimeSignal(SpliceTime::At(8_589_934_591))), Ok(vec![0xFF; 5]));
    assert_eq!(write(&SpliceCommand::TimeSignal(SpliceTime::Unspecified)), Ok(vec![0x7F]));
    let [first, second] = [0x0F, 0x1F].map(|flags| [0, 0, 0, 1, 0x7F, flags, 0, 0, 0, 0, 0]);
    let read = read_command(SpliceCommandType::SpliceInsert, &second).expect("an insert");
    assert_eq!(write(&read), Ok(first.to_vec()));
    assert_eq!(write(&SpliceCommand::SpliceNull), Ok(vec![]));
    assert_eq!(write(&SpliceCommand::BandwidthReservation), Ok(vec![]));
    assert_eq!(write(&SpliceCommand::PrivateCommand { identifier: 1, private_bytes: &[7, 8] }), Ok(vec![0, 0, 0, 1, 7, 8]));
    // refusals
    assert_eq!(write(&SpliceCommand::TimeSignal(SpliceTime::At(1 << 33))), Err(Refusal::TooLarge));
    assert_eq!(write(&SpliceCommand::TimeSignal(SpliceTime::Immediate)), Err(Refusal::Unwritable));
    assert_eq!(write(&SpliceCommand::PrivateCommand { identifier: 1, private_bytes: &[0; 37] }), Err(Refusal::TargetTooShort));
    let insert = |reserved| SpliceCommand::SpliceInsert(SpliceInsert { splice_event_id: 1, reserved, detail: None });
    assert_eq!(write(&insert(127)), Ok(vec![0, 0, 0, 1, 0xFF]));
    assert_eq!(write(&insert(126)), Err(Refusal::Unwritable));
    assert_eq!(write(&insert(128)), Err(Refusal::TooLarge));
}

#[test]
fn descriptors() {
    let write = |descriptor: &SpliceDescriptor<'_>| {
        let mut target = [0x55; 300];
        let answer = write_descriptor(descriptor, &mut target);
        assert_eq!(write_descriptor_to_vec(descriptor), answer.map(|length| target[..length].to_vec()));
        assert!(target[answer.unwrap_or(0)..].iter().all(|b| *b == 0x55));
        answer.map(|length| target[..length].to_vec())
    };
    // row g
    assert_eq!(write(&SpliceDescriptor::Dtmf { preroll: 177, dtmf_chars: b"4" }), Ok(unhex("01 07 43 55 45 49 B1 3F 34")));
    assert_eq!(write(&SpliceDescriptor::Dtmf { preroll: 177, dtmf_chars: b"12345678" }), Err(Refusal::TooLarge));
    let reserved = |tag, private_bytes| SpliceDescriptor::Reserved { tag, identifier: *b"CUEI", private_bytes };
    assert_eq!(write(&reserved(3, &[])), Err(Refusal::Unwritable));
    assert_eq!(write(&reserved(4, &[])), Ok(unhex("04 04 43 55 45 49")));
    // row d, and one byte more
    assert_eq!(write(&reserved(9, &[7; 250])).map(|d| d.len()), Ok(256));
    assert_eq!(write(&reserved(9, &[7; 251])), Err(Refusal::ResultTooLong));
    // an ISAN of eight bytes is of the older type
    let segment = |segmentation_upid| SpliceDescriptor::Segmentation {
        segmentation_event_id: 42,
        detail: Some(SegmentationDetail {
            delivery_restrictions: None,
            components: None,
            segmentation_duration: None,
            segmentation_upid,
            segmentation_type_id: SegmentationTypeId::ProgramStart,
            segment_num: 1,
            segments_expected: 1,
            sub_segments: None,
        }),
    };
    // row n
    assert_eq!(write(&segment(Upid::None)), Ok(unhex("02 0F 43 55 45 49 00 00 00 2A 7F BF 00 00 10 01 01")));
    let isan = Upid::Bytes { upid_type: SegmentationUpidType::ISAN, bytes: &[1; 8] };
    assert_eq!(write(&segment(isan)).map(|d| d[12..14].to_vec()), Ok(vec![5, 8]));
    let eidr = write(&segment(Upid::Eidr([1, 2, 3, 4, 5, 6, 7, 8, 9, 10, 11, 12]))).expect("written");
    assert_eq!(eidr[12..26], [10, 12, 1, 2, 3, 4, 5, 6, 7, 8, 9, 10, 11, 12]);
    // what no reader gives
    let wrong = Upid::Bytes { upid_type: SegmentationUpidType::AdID, bytes: b"ABCD0001000H" };
    assert_eq!(write(&segment(wrong)), Err(Refusal::Unwritable));
    assert_eq!(write(&segment(Upid::Text { upid_type: SegmentationUpidType::AdID, text: "ABCD0001000" })), Err(Refusal::Unwritable));
    let named = Upid::Bytes { upid_type: SegmentationUpidType::Reserved(8), bytes: &[1; 8] };
    assert_eq!(write(&segment(named)), Err(Refusal::Unwritable));
}

#[test]
fn sections() {
    let sample = unhex(SAMPLES[1]);
    let section = read_section(&sample).expect("a sample of the standard");
    let write = |section: &Section<'_>, room: usize| {
        let mut target = vec![0x55; room];
        let answer = write_section(section, &mut target);
        if room == MAX_SECTION {
            assert_eq!(write_section_to_vec(section), answer.map(|length| target[..length].to_vec()));
        }
        assert!(target[answer.unwrap_or(0)..].iter().all(|b| *b == 0x55));
        answer
    };
    assert_eq!(write(&section, 4096), Ok(sample.len()));
    assert_eq!(write(&section, sample.len()), Ok(sample.len()));
    assert_eq!(write(&section, sample.len() - 1), Err(Refusal::TargetTooShort));
    let with = |change: &dyn Fn(&mut SpliceInfoHeader)| {
        let mut changed = section.clone();
        change(&mut changed.header);
        changed
    };
    assert_eq!(write(&with(&|h| h.tier = 4096), 4096), Err(Refusal::TooLarge));
    assert_eq!(write(&with(&|h| h.encrypted_packet = true), 4096), Err(Refusal::Unwritable));
    let algorithm = |algorithm| with(&|h| h.encryption_algorithm = algorithm);
    assert_eq!(write(&algorithm(EncryptionAlgorithm::Private(32)), 4096), Ok(sample.len()));
    assert_eq!(write(&algorithm(EncryptionAlgorithm::Private(31)), 4096), Err(Refusal::Unwritable));
    assert_eq!(write(&algorithm(EncryptionAlgorithm::Private(64)), 4096), Err(Refusal::TooLarge));
    assert_eq!(write(&algorithm(EncryptionAlgorithm::Reserved(3)), 4096), Err(Refusal::Unwritable));
    // command length and type are worked out
    let other = with(&|h| (h.splice_command_length, h.splice_command_type) = (9, SpliceCommandType::SpliceNull));
    assert_eq!(write(&other, 4096), Ok(sample.len()));
    assert_eq!(write(&around(&section, &[0; 4057]), 4096), Err(Refusal::ResultTooLong));
    assert_eq!(write(&around(&section, &[0; 7]), 4096), Err(Refusal::LoopNotCanonical));
    assert!(is_canonical_loop(&[]) && is_canonical_loop(section.descriptors.bytes()) && is_canonical_descriptor(section.descriptors.bytes()));
    assert!(!is_canonical_descriptor(&[]) && !is_canonical_loop(&[0; 7]) && !is_canonical_section(&[]));
    assert_eq!(Refusal::OutsideLent.number(), 31);
    assert_eq!(Refusal::TargetTooShort.number(), 36);
}

#[test]
fn a_chain_of_adjustments_is_one() {
    const LAST: u64 = 8_589_934_591;
    let numbers = [0, 1, 1 << 32, LAST, LAST + 1, u64::MAX];
    let fits = |n: u64| if n <= LAST { Ok(n) } else { Err(Refusal::TooLarge) };
    for a in numbers {
        assert_eq!(undo_adjustment(a), fits(a).map(|a| (LAST + 1 - a) % (LAST + 1)));
        for b in numbers {
            assert_eq!(chain_adjustments(a, b), fits(a).and(fits(b)).map(|b| (a + b) % (LAST + 1)));
            assert_eq!(SpliceTime::At(a).moved(b), fits(a).and(fits(b)).map(|b| SpliceTime::At((a + b) % (LAST + 1))));
        }
        assert_eq!(SpliceTime::Unspecified.moved(a), fits(a).map(|_| SpliceTime::Unspecified));
        assert_eq!(SpliceTime::Immediate.moved(a), fits(a).map(|_| SpliceTime::Immediate));
    }
}

#[test]
fn a_section_with_its_adjustment_moved() {
    for sample in SAMPLES {
        let sample = closed(unhex(sample));
        let old = read_section(&sample).unwrap();
        for a in [0, 1, 1 << 32, 8_589_934_591] {
            let moved = adjust_section_to_vec(&sample, a).unwrap();
            let new = read_section(&moved).unwrap();
            assert_eq!(new.header.pts_adjustment, (old.header.pts_adjustment + a) % 8_589_934_592);
            assert!(is_canonical_section(&moved) && moved.len() == sample.len());
            let mut header = new.header;
            header.pts_adjustment = old.header.pts_adjustment;
            assert_eq!((header, new.command, new.descriptors), (old.header, old.command.clone(), old.descriptors));
            assert_eq!(adjust_section_to_vec(&moved, undo_adjustment(a).unwrap()), Ok(sample.clone()));
            // a target that is too short keeps its bytes
            let mut short = vec![0xA5; sample.len() - 1];
            assert_eq!(adjust_section(&sample, a, &mut short), Err(Refusal::TargetTooShort));
            assert!(short.iter().all(|b| *b == 0xA5));
        }
        assert_eq!(adjust_section_to_vec(&sample, 1 << 33), Err(Refusal::TooLarge));
        assert_eq!(adjust_section_to_vec(&sample[..17], 1 << 33), Err(Refusal::WrongCrc));
    }
}

/// A section's line, under the name that its command chooses, and back.
#[test]
fn lines_of_playlists() {
    let date = b"2026-01-01T00:00:00Z";
    let returns = closed(unhex("FC301B00000000000000FFF00A05000000017F5F000101010000 00000000"));
    let cancelled = closed(unhex("FC301600000000000000FFF0050500000001FF0000 00000000"));
    for (section, name) in [(unhex(SAMPLES[1]), CueName::Out), (returns, CueName::In), (cancelled, CueName::Cmd), (unhex(SAMPLES[0]), CueName::Cmd)] {
        let digits: String = section.iter().map(|b| format!("{b:02X}")).collect();
        let line = write_daterange_to_vec(&section, b"a, b", date).unwrap();
        assert_eq!(line, format!("#EXT-X-DATERANGE:ID=\"a, b\",START-DATE=\"2026-01-01T00:00:00Z\",{}=0x{digits}", name.name()).into_bytes());
        let mut room = vec![0; section.len()];
        let back = read_daterange(&line, &mut room).unwrap();
        assert_eq!((back.id, &back.date[..], back.name, back.section), (&b"a, b"[..], &date[..], name, &section[..]));
        // another order, and an attribute of another name
        let turned = format!("#EXT-X-DATERANGE:{}=0X{digits},X-A=\"=,\",START-DATE=\"2026-01-01T00:00:00Z\",ID=\"a, b\"", name.name());
        let mut other = vec![0; section.len()];
        assert_eq!(read_daterange(turned.as_bytes(), &mut other), read_daterange(&line, &mut room));
        // a vector takes whatever the line holds
        let mut own = vec![7; 3];
        assert_eq!(read_daterange_to_vec(&line, &mut own), read_daterange(&line, &mut room));
        assert_eq!(own, section);
    }
}

#[test]
fn refused_lines() {
    let null = closed(unhex(SAMPLES[3]));
    let line = write_daterange_to_vec(&null, b"1", b"2").unwrap();
    let text = String::from_utf8(line.clone()).unwrap();
    let read = |text: &str| read_daterange(text.as_bytes(), &mut [0; 20]).err();
    assert_eq!(read(&text), None);
    for wrong in [
        "".into(),
        text[1..].into(),
        text.to_lowercase(),
        format!("{text},"),
        format!("{text}0"),
        format!("{text},ID=\"1\""),
        text.replace("\"1\"", "1"),
    ] {
        assert_eq!(read(&wrong), Some(Refusal::MalformedLine), "{wrong}");
    }
    for wrong in [text.replace("ID=", "IDS="), text.replace("START-DATE", "END-DATE"), text.replace("SCTE35-CMD", "X")] {
        assert_eq!(read(&wrong), Some(Refusal::AttributeMissing), "{wrong}");
    }
    let mut own = vec![7; 3];
    assert_eq!(read_daterange_to_vec(b"", &mut own), Err(Refusal::MalformedLine));
    assert!(own.is_empty());
    // nothing is changed where it is refused
    let mut room = [7; 19];
    assert_eq!(read_daterange(&line, &mut room), Err(Refusal::TargetTooShort));
    assert_eq!(room, [7; 19]);
    let mut target = vec![7; line.len()];
    assert_eq!(write_daterange(&null, b"1\"", b"2", &mut target), Err(Refusal::Unquotable));
    assert_eq!(write_daterange(&null, b"1", b"\n", &mut target), Err(Refusal::Unquotable));
    assert_eq!(write_daterange(&null, b"1", b"2", &mut target[1..]), Err(Refusal::TargetTooShort));
    assert_eq!(write_daterange(&null[1..], b"\"", b"2", &mut target), Err(Refusal::OtherTable));
    assert_eq!(target, vec![7; line.len()]);
    assert_eq!(write_daterange(&null, b"1", b"2", &mut target), Ok(line.len()));
    assert_eq!(target, line);
}
