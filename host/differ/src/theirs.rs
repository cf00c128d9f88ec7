//! The crate's answers. Sections and headers are read by the unchanged crate through its public functions; steps with their offsets,
//! UPIDs alone and commands alone by the same text with doors to those private functions put behind it.
use crate::answer::{Command, Header, Item, Refusal, Section, Step, Upid};
use mpeg2ts_reader::psi::{SectionCommonHeader, WholeCompactSyntaxPayloadParser};
use std::cell::RefCell;

mod unchanged {
    use scte35_reader as c;
    include!("convert.rs");
}

mod opened {
    use scte35_open as c;
    include!("convert.rs");
}

thread_local! { static REASON: RefCell<String> = const { RefCell::new(String::new()) }; }

struct Keep;

impl log::Log for Keep {
    fn enabled(&self, _: &log::Metadata<'_>) -> bool {
        true
    }
    fn log(&self, record: &log::Record<'_>) {
        REASON.with(|r| *r.borrow_mut() = record.args().to_string());
    }
    fn flush(&self) {}
}

/// Keeps the crate's last log line: it says there alone why it refuses a section.
pub fn listen() {
    log::set_logger(&Keep).expect("one logger");
    log::set_max_level(log::LevelFilter::Error);
}

/// The number of the rules for what the crate logs of a section.
fn number(reason: &str) -> u8 {
    const REASONS: [(&str, u8); 9] = [
        ("bad table_id", 3),
        ("section CRC check failed", 4),
        ("section data too short", 5),
        ("encrypted SCTE-35", 6),
        ("splice_command_length of", 7),
        ("end of section data", 8),
        ("descriptor_loop_length of", 9),
        ("unhandled command", 10),
        ("parse error", 11),
    ];
    REASONS.iter().find(|(start, _)| reason.starts_with(start)).unwrap_or_else(|| panic!("unknown reason: {reason}")).1
}

struct Context;
impl mpeg2ts_reader::demultiplex::DemuxContext for Context {}

struct Keeper<'a> {
    kept: &'a RefCell<Option<Section>>,
    mended: bool,
}

impl scte35_reader::SpliceInfoProcessor for Keeper<'_> {
    fn process(
        &self,
        header: scte35_reader::SpliceInfoHeader<'_>,
        command: scte35_reader::SpliceCommand,
        descriptors: scte35_reader::SpliceDescriptors<'_>,
    ) {
        *self.kept.borrow_mut() = Some(Section::Accepted {
            header: unchanged::header(&header),
            command: unchanged::command(&command),
            items: descriptors.into_iter().map(|x| unchanged::item(&x, self.mended)).collect(),
        });
    }
}

/// A section of at least 3 bytes. `mended`: with the right length for an ISAN of 12 bytes (docs/DIFFERENCES.md, 4).
pub fn section(data: &[u8], mended: bool) -> Section {
    let kept = RefCell::new(None);
    let mut processor = scte35_reader::Scte35SectionProcessor::<_, Context>::new(Keeper { kept: &kept, mended });
    let header = SectionCommonHeader::new(&data[..SectionCommonHeader::SIZE]);
    processor.section(&mut Context, &header, data);
    drop(processor);
    kept.into_inner().unwrap_or_else(|| Section::Refused(REASON.with(|r| number(&r.borrow()))))
}

/// A splice header of at least 11 bytes; with fewer the crate panics.
pub fn header(data: &[u8]) -> Header {
    unchanged::header(&scte35_reader::SpliceInfoHeader::new(data).0)
}

/// One step over a loop from an offset within it. An error that leaves nothing has taken the rest.
pub fn step(data: &[u8], offset: usize, mended: bool) -> Step {
    let (item, left) = scte35_open::open::step(&data[offset..]);
    Step { item: item.map(|x| opened::item(&x, mended)), next: data.len() - left }
}

/// All items of a loop, through the unchanged crate: a section with a null command around it.
pub fn items(data: &[u8], mended: bool) -> Vec<Item> {
    match section(&crate::make::null_section(data), mended) {
        Section::Accepted { items, .. } => items,
        Section::Refused(n) => panic!("the section around a loop is refused: {n}"),
    }
}

/// A UPID of at most 255 bytes under the type as written.
pub fn upid(kind: u8, bytes: &[u8], mended: bool) -> Result<Upid, Refusal> {
    match scte35_open::open::upid(kind, bytes) {
        Ok(u) => Ok(opened::upid(&u, mended)),
        Err(e) => Err(opened::refusal(&e)),
    }
}

pub fn command(kind: u8, payload: &[u8]) -> Command {
    match scte35_open::open::command(kind, payload) {
        None => Command::Refused(10),
        Some(Ok(x)) => opened::command(&x),
        Some(Err(_)) => Command::Refused(11),
    }
}
