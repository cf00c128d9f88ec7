//! bench SIDE HEX TURNS ROUNDS: one section, read that many times with all its items. SIDE: `here` (the C functions), `parts` (these, and the parts of each
//! MID), `api` (the Rust interface over them), `section` (the C function of a section alone), `crate`; or `write`: read once, and written back that many times by the C functions.
//! bench SIDE HEX OFFSET PART TYPE NEW TURNS ROUNDS: `relabel`, one identifier of the section replaced, or `crc`, the CRC of the result.
//! Prints nanoseconds a turn, of the best round. `host/bench` counts the instructions of the function `bench_SIDE` and of what it calls.
//! bench close HEX: the section of these bytes, its length and CRC put right. bench size HEX OFFSET PART TYPE NEW: the bytes of the result.
use mpeg2ts_reader::psi::{SectionCommonHeader, WholeCompactSyntaxPayloadParser};
use std::hint::black_box;
use std::time::Instant;

/// The section, then every step over its loop.
#[no_mangle]
#[inline(never)]
fn bench_here(section: &[u8]) {
    let read = scte35::raw::read_section(section, 0);
    black_box(&read);
    let place = read.descriptors;
    let descriptors = &section[place.at as usize..][..place.len as usize];
    let mut offset = 0;
    while offset < descriptors.len() {
        let step = scte35::raw::read_item(descriptors, offset);
        black_box(&step);
        offset = step.next as usize;
    }
}

/// The same, and of each MID its parts: all that a caller reads who names one of them.
#[no_mangle]
#[inline(never)]
fn bench_parts(section: &[u8]) {
    let read = scte35::raw::read_section(section, 0);
    black_box(&read);
    let place = read.descriptors;
    let descriptors = &section[place.at as usize..][..place.len as usize];
    let mut offset = 0;
    while offset < descriptors.len() {
        let step = scte35::raw::read_item(descriptors, offset);
        black_box(&step);
        if step.item.segmentation.segmentation_upid_type == 13 {
            let view = step.item.bytes;
            let upid = &descriptors[view.at as usize..][..view.len as usize];
            black_box(&scte35::raw::read_upid(13, upid, 0));
        }
        offset = step.next as usize;
    }
}

#[no_mangle]
#[inline(never)]
fn bench_section(section: &[u8]) {
    black_box(&scte35::raw::read_section(section, 0));
}

#[no_mangle]
#[inline(never)]
fn bench_api(section: &[u8]) {
    if let Ok(read) = scte35::read_section(section) {
        black_box(read.descriptors.into_iter().collect::<Vec<_>>());
        black_box(&read.header);
        black_box(&read.command);
    }
}

struct Context;
impl mpeg2ts_reader::demultiplex::DemuxContext for Context {}

/// Takes every field of the header, the command and the list of descriptors.
struct Collect;
impl scte35_reader::SpliceInfoProcessor for Collect {
    fn process(
        &self,
        header: scte35_reader::SpliceInfoHeader<'_>,
        command: scte35_reader::SpliceCommand,
        descriptors: scte35_reader::SpliceDescriptors<'_>,
    ) {
        // all that the port's answer holds of the header
        black_box((header.protocol_version(), header.encrypted_packet(), header.encryption_algorithm(), header.pts_adjustment()));
        black_box((header.cw_index(), header.tier(), header.splice_command_length(), header.splice_command_type()));
        black_box(&command);
        black_box(descriptors.into_iter().collect::<Vec<_>>());
    }
}

#[no_mangle]
#[inline(never)]
fn bench_crate(section: &[u8]) {
    let mut processor = scte35_reader::Scte35SectionProcessor::<_, Context>::new(Collect);
    processor.section(&mut Context, &SectionCommonHeader::new(&section[..3]), section);
}

/// What the C functions read of a section.
struct Read {
    section: Vec<u8>,
    head: scte35::raw::Section,
    components: scte35::raw::InsertComponents,
    items: Vec<(scte35::raw::Step, scte35::raw::SegmentationComponents)>,
}

impl Read {
    fn new(section: Vec<u8>) -> Read {
        let head = scte35::raw::read_section(&section, 0);
        let components = scte35::raw::read_insert_components(&section[..(head.payload.at + head.payload.len) as usize], head.payload.at as usize);
        let mut read = Read { section, head, components, items: vec![] };
        let mut offset = 0;
        while offset < read.descriptors().len() {
            let (step, beside) =
                (scte35::raw::read_item(read.descriptors(), offset), scte35::raw::read_segmentation_components(read.descriptors(), offset));
            offset = step.next as usize;
            read.items.push((step, beside));
        }
        read
    }

    fn descriptors(&self) -> &[u8] {
        let place = self.head.descriptors;
        &self.section[place.at as usize..][..place.len as usize]
    }
}

/// Every item as its descriptor, one behind the other, then the section around them; its length.
#[no_mangle]
#[inline(never)]
fn bench_write(read: &Read, joined: &mut [u8; 4096], target: &mut [u8; 4096]) -> u64 {
    let mut end = 0;
    for (step, beside) in &read.items {
        end += scte35::raw::write_descriptor_words(step.words(), beside.words(), read.descriptors(), &mut joined[end..]).length as usize;
    }
    let (header, command, components) = (read.head.header.words(), read.head.command.words(), read.components.words());
    scte35::raw::write_section_words(header, command, components, &read.section, &joined[..end], target).length
}

/// An identifier that is replaced.
struct Relabelling {
    section: Vec<u8>,
    offset: usize,
    part: usize,
    upid_type: u8,
    new: Vec<u8>,
}

impl Relabelling {
    /// HEX OFFSET PART TYPE NEW
    fn of(words: &[String]) -> Relabelling {
        let number = |word: &str| word.parse().expect("a number");
        let bytes = differ::answer::unhex;
        Relabelling {
            section: bytes(&words[0]),
            offset: number(&words[1]),
            part: number(&words[2]),
            upid_type: number(&words[3]) as u8,
            new: bytes(&words[4]),
        }
    }

    fn result(&self) -> Vec<u8> {
        let mut target = [0; 4096];
        let length = bench_relabel(self, &mut target) as usize;
        assert!(length > 0, "refused");
        target[..length].to_vec()
    }
}

#[no_mangle]
#[inline(never)]
fn bench_relabel(x: &Relabelling, target: &mut [u8; 4096]) -> u64 {
    scte35::raw::relabel(&x.section, x.offset, x.part, x.upid_type, &x.new, target).length
}

#[no_mangle]
#[inline(never)]
fn bench_crc(bytes: &[u8]) {
    black_box(scte35::raw::crc(bytes, 0));
}

/// section_length, and the CRC behind all
fn close(mut bytes: Vec<u8>) -> String {
    let length = bytes.len() + 4 - 3;
    bytes[1] = (bytes[1] & 0xF0) | (length >> 8) as u8;
    bytes[2] = length as u8;
    let crc = scte35::crc(&bytes);
    bytes.extend(crc.to_be_bytes());
    differ::answer::hex(&bytes)
}

/// Nanoseconds a turn, of the best round.
fn best(turns: u32, rounds: u32, mut turn: impl FnMut()) -> f64 {
    let mut best = f64::MAX;
    for _ in 0..rounds {
        let start = Instant::now();
        (0..turns).for_each(|_| turn());
        best = best.min(start.elapsed().as_nanos() as f64 / f64::from(turns));
    }
    best
}

fn main() {
    let words: Vec<String> = std::env::args().collect();
    let section = differ::answer::unhex(&words[2]);
    match words[1].as_str() {
        "close" => return println!("{}", close(section)),
        "size" => return println!("{}", Relabelling::of(&words[2..]).result().len()),
        _ => {}
    }
    let (before, last) = words.split_at(words.len() - 2);
    let turns: u32 = last[0].parse().expect("a number of turns");
    let rounds: u32 = last[1].parse().expect("a number of rounds");
    let reading = |side: fn(&[u8])| best(turns, rounds, || black_box(side)(black_box(&section)));
    let took = match words[1].as_str() {
        "here" => reading(bench_here),
        "api" => reading(bench_api),
        "parts" => reading(bench_parts),
        "section" => reading(bench_section),
        "crate" => reading(bench_crate),
        "write" => {
            let (read, mut joined, mut target) = (Read::new(section.clone()), [0; 4096], [0; 4096]);
            let took = best(turns, rounds, || {
                black_box(bench_write(black_box(&read), &mut joined, &mut target));
            });
            assert_eq!(&target[..section.len()], section, "the samples are canonical");
            took
        }
        "relabel" => {
            let (x, mut target) = (Relabelling::of(&before[2..]), [0; 4096]);
            best(turns, rounds, || {
                black_box(bench_relabel(black_box(&x), &mut target));
            })
        }
        "crc" => {
            let result = Relabelling::of(&before[2..]).result();
            best(turns, rounds, || bench_crc(black_box(&result)))
        }
        _ => panic!("here, parts, api, section, crate, write, relabel or crc"),
    };
    println!("{took:.1}");
}
