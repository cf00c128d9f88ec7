//! Lines of streaming playlists: drawn and damaged, through the proved reader and writer and through plain second ones.
pub mod plain;

use crate::answer::{hex, unhex};
use crate::packets::cue;
use crate::rng::Rng;
use mpeg2ts_reader::mpegts_crc::sum32;
use plain::{Said, NAMES};
use scte35::raw;
use std::collections::BTreeMap;

/// How many differences are printed in full.
const PRINTED: u64 = 20;
/// A byte that the target is filled with, to see what is changed.
const FILL: u8 = 0xA5;

pub struct Playlists {
    pub rng: Rng,
    pub lines: u64,
    pub writes: u64,
    pub differing: u64,
    pub counts: BTreeMap<(&'static str, String), u64>,
}

/// What the proved reader says, and the target as it leaves it.
fn ours(line: &[u8], room: usize) -> (Result<Said, u64>, Vec<u8>) {
    let mut target = vec![FILL; room];
    let x = raw::read_daterange(line, 0, &mut target);
    let part = |v: &raw::View| line[v.at as usize..][..v.len as usize].to_vec();
    let said = match x.refusal {
        0 => Ok(Said { id: part(&x.id), date: part(&x.date), name: NAMES[x.name as usize - 1], section: target[..x.length as usize].to_vec() }),
        n => Err(n),
    };
    (said, target)
}

impl Playlists {
    pub fn new(seed: u64) -> Playlists {
        Playlists { rng: Rng::new(seed), lines: 0, writes: 0, differing: 0, counts: BTreeMap::new() }
    }

    fn count(&mut self, group: &'static str, name: impl Into<String>) {
        *self.counts.entry((group, name.into())).or_default() += 1;
    }

    fn expect(&mut self, holds: bool, told: impl FnOnce() -> String) {
        if !holds {
            self.differing += 1;
            if self.differing <= PRINTED {
                println!("DIFFERENT: {}", told());
            }
        }
    }

    /// One line through both, and the target behind it.
    pub fn line(&mut self, line: &[u8], room: usize) -> Result<Said, u64> {
        self.lines += 1;
        let (said, target) = ours(line, room);
        let expected = plain::read(line, room);
        let told = || format!("{}, room {room}: {said:?} here, {expected:?} expected", String::from_utf8_lossy(line));
        let same = said == expected;
        let kept = said.as_ref().map_or(0, |s| s.section.len());
        let untouched = target[kept..].iter().all(|b| *b == FILL);
        self.expect(same && untouched, told);
        match &expected {
            Ok(said) => self.count("read", said.name),
            Err(n) => self.count("refused", n.to_string()),
        }
        expected
    }

    /// One write through both, and the line read back.
    pub fn write(&mut self, section: &[u8], id: &[u8], date: &[u8], room: usize) {
        self.writes += 1;
        let mut target = vec![FILL; room];
        let x = raw::write_daterange(section, 0, id, date, &mut target);
        let expected = plain::write(section, id, date, room);
        let written = match x.refusal {
            0 => Ok(target[..x.length as usize].to_vec()),
            n => Err(n),
        };
        let kept = written.as_ref().map_or(0, Vec::len);
        let untouched = target[kept..].iter().all(|b| *b == FILL);
        self.expect(written == expected && untouched, || format!("{} written: {:?} here, {:?} expected", hex(section), written, expected));
        match expected {
            Err(n) => self.count("not written", n.to_string()),
            Ok(line) => {
                let name = plain::name(section).expect("it was written");
                self.count("written", name);
                let back = self.line(&line, section.len());
                let same = Ok(Said { id: id.to_vec(), date: date.to_vec(), name, section: section.to_vec() });
                self.expect(back == same, || format!("{} read back: {back:?}", String::from_utf8_lossy(&line)));
            }
        }
    }

    fn text(&mut self, most: usize) -> Vec<u8> {
        let n = self.rng.below(most + 1);
        (0..n).map(|_| if self.rng.one_in(9) { self.rng.pick(b", =\t\x00\xFF#:") } else { self.rng.between(0x30, 0x7A) as u8 }).collect()
    }

    fn section(&mut self) -> Vec<u8> {
        match self.rng.below(12) {
            0 => cue(&mut self.rng),
            1 => {
                let n = self.rng.between(1, 4100);
                self.rng.bytes(n)
            }
            _ => {
                let n = self.rng.between(1, 30);
                self.rng.bytes(n)
            }
        }
    }

    fn digits(&mut self) -> Vec<u8> {
        let section = self.section();
        let mut text = if self.rng.one_in(4) { "0X".to_string() } else { "0x".to_string() };
        text += &hex(&section).to_uppercase();
        text.into_bytes()
    }

    fn unknown(&mut self) -> Vec<u8> {
        let mut name = self
            .rng
            .pick(&["X-A", "CLASS", "DURATION", "PLANNED-DURATION", "END-DATE", "SCTE35", "SCTE35-CMD-", "IDS", "START", "1", "-"])
            .as_bytes()
            .to_vec();
        if self.rng.bit() {
            name.extend(self.rng.below(1000).to_string().into_bytes());
        }
        let value = match self.rng.below(4) {
            0 => format!("{}.{}", self.rng.below(100), self.rng.below(1000)).into_bytes(),
            1 => b"0xZZ".to_vec(),
            2 => b"YES".to_vec(),
            _ => [b"\"".to_vec(), self.text(20), b"\"".to_vec()].concat(),
        };
        [name, b"=".to_vec(), value].concat()
    }

    /// The attributes of a line: the known ones, most of them, and unknown ones, in any order.
    fn attributes(&mut self) -> Vec<Vec<u8>> {
        let mut list: Vec<Vec<u8>> = vec![];
        for name in ["ID", "START-DATE"] {
            if !self.rng.one_in(20) {
                let text = self.text(30);
                list.push([name.as_bytes(), b"=\"", &text, b"\""].concat());
            }
        }
        let first = self.rng.below(3);
        for k in 0..3 {
            let wanted = if k == first { !self.rng.one_in(20) } else { self.rng.one_in(8) };
            if wanted {
                let digits = self.digits();
                list.push([NAMES[k].as_bytes(), b"=", &digits].concat());
            }
        }
        let unknown = if self.rng.one_in(40) { self.rng.below(60) } else { self.rng.below(4) };
        for _ in 0..unknown {
            let one = self.unknown();
            list.push(one);
        }
        for i in (1..list.len()).rev() {
            let j = self.rng.below(i + 1);
            list.swap(i, j);
        }
        list
    }

    /// What is put wrong with a line.
    fn damage(&mut self, line: &mut Vec<u8>) {
        const ODD: &[u8] = b"\",=#:;0xXaAfFgG-_ \t\r\n\x0B\x00\x80\xFF";
        let at = self.rng.below(line.len().max(1));
        match self.rng.below(7) {
            0 if !line.is_empty() => line[at] = self.rng.pick(ODD),
            1 if !line.is_empty() => {
                line.remove(at);
            }
            2 => line.insert(at.min(line.len()), self.rng.pick(ODD)),
            3 => line.truncate(at),
            4 => line.push(self.rng.pick(ODD)),
            5 if !line.is_empty() => line[at] = line[at].to_ascii_lowercase(),
            _ => {
                // a piece once more
                let pieces: Vec<Vec<u8>> = line.split(|b| *b == b',').map(<[u8]>::to_vec).collect();
                let again = pieces[self.rng.below(pieces.len())].clone();
                line.push(b',');
                line.extend(again);
            }
        }
    }

    /// A line that is drawn, and what comes of it when it is damaged.
    pub fn drawn(&mut self) {
        let list = if self.rng.one_in(300) { vec![] } else { self.attributes() };
        self.count("attributes", if list.len() > 6 { "7 and more".into() } else { list.len().to_string() });
        let mut line = [b"#EXT-X-DATERANGE:".to_vec(), list.join(&b","[..])].concat();
        let room = match self.rng.below(10) {
            0 => self.rng.below(40),
            _ => 4200,
        };
        let said = self.line(&line, room);
        if let Ok(said) = &said {
            let cues = list.iter().filter(|a| NAMES.iter().any(|n| a.starts_with(format!("{n}=").as_bytes()))).count();
            if cues > 1 {
                self.count("read", "the first of several cues");
            }
            if list.len() > 2 + cues {
                self.count("read", "with unknown attributes");
            }
            if room == said.section.len() {
                self.count("read", "into room that it just fits");
            }
        }
        for _ in 0..self.rng.between(1, 3) {
            self.damage(&mut line);
            if self.line(&line, 4200).is_ok() {
                self.count("read", "though something was changed");
            }
        }
    }

    /// A section for each refusal that is seldom met by chance.
    fn faulty(&mut self) -> Vec<u8> {
        match self.rng.below(7) {
            0 => vec![0xFC, 0x30],
            1 => vec![0xFC; 4097],
            k => {
                let mut section = unhex(
                    [
                        "FC3004",
                        "FC301100800000000000FFF000000000",
                        "FC301100000000000000FFF003000000",
                        "FC300F00000000000000FFF00000",
                        "FC301100000000000000FFF000000001",
                    ][k - 2],
                );
                let crc = sum32(&section);
                section.extend(crc.to_be_bytes());
                section
            }
        }
    }

    /// A section that is drawn, written under a drawn ID and date; some of them are damaged, some with a right CRC again.
    pub fn write_drawn(&mut self) {
        let mut section = match self.rng.below(30) {
            0 => self.faulty(),
            1..=10 => self.section(),
            _ => cue(&mut self.rng),
        };
        if self.rng.one_in(3) {
            let at = self.rng.below(section.len().min(24));
            section[at] = self.rng.byte();
            let end = section.len();
            if end > 7 && !self.rng.one_in(4) {
                let crc = sum32(&section[..end - 4]);
                section[end - 4..].copy_from_slice(&crc.to_be_bytes());
            }
        }
        let (mut id, mut date) = (self.text(40), self.text(30));
        if self.rng.one_in(12) {
            let text = if self.rng.bit() { &mut id } else { &mut date };
            text.push(b"\"\r\n"[(self.writes % 3) as usize]);
        }
        let room = match self.rng.below(8) {
            0 => (2 * section.len() + id.len() + date.len() + 44) + self.rng.below(8),
            _ => 9000,
        };
        self.write(&section, &id, &date, room);
    }
}
