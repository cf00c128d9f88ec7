//! Sections straight from transport packets of 188 bytes (ISO/IEC 13818-1): the assembler of one PID, by proved code. It knows nothing of SCTE 35: each
//! section that it gives has the length that its own section_length says, and is handed on to `read_section`.
//!
//! ```
//! use scte35::packet::Assembler;
//!
//! // one packet of PID 500: payload_unit_start, counter 0, pointer_field 0, a section of 5 bytes, stuffing
//! let mut packet = [0xFF; 188];
//! packet[..10].copy_from_slice(&[0x47, 0x41, 0xF4, 0x10, 0x00, 0xFC, 0x30, 0x02, 0xAA, 0xBB]);
//! let mut assembler = Assembler::new(500);
//! let mut sections = assembler.feed(&packet).unwrap();
//! assert_eq!(sections.next(), Some(&[0xFC, 0x30, 0x02, 0xAA, 0xBB][..]));
//! assert_eq!(sections.next(), None);
//! ```
use crate::Refusal;

/// The bytes of a transport packet.
pub const PACKET: usize = 188;
/// The words of an assembler's state over C: the PID, the last counter (16: none yet), how many bytes are under way, the place in the packet.
pub const PACKET_WORDS: usize = 4;
/// The bytes of the buffer: the most that a section has.
const BUFFER: usize = 4096;

mod c {
    extern "C" {
        pub fn scte35_packet_start(pid: u64, state: *mut u64, state_words: usize);
        pub fn scte35_packet_feed(state: *mut u64, state_words: usize, packet: *const u8, packet_length: usize, buffer: *mut u8, buffer_length: usize) -> u64;
        pub fn scte35_packet_take(state: *mut u64, state_words: usize, packet: *const u8, packet_length: usize, buffer: *mut u8, buffer_length: usize) -> u64;
    }
}

/// The C functions on slices: any words, any packet and any buffer are taken and answered.
pub mod words {
    use super::c;

    /// The state before the first packet of a PID.
    pub fn start(pid: u64, state: &mut [u64]) {
        unsafe { c::scte35_packet_start(pid, state.as_mut_ptr(), state.len()) }
    }

    /// 0, or the number of the packet's refusal.
    pub fn feed(state: &mut [u64], packet: &[u8], buffer: &mut [u8]) -> u64 {
        unsafe { c::scte35_packet_feed(state.as_mut_ptr(), state.len(), packet.as_ptr(), packet.len(), buffer.as_mut_ptr(), buffer.len()) }
    }

    /// The length of the next section, which stands at the buffer's start where that has room for it; 0 where nothing is left of the packet.
    pub fn take(state: &mut [u64], packet: &[u8], buffer: &mut [u8]) -> u64 {
        unsafe { c::scte35_packet_take(state.as_mut_ptr(), state.len(), packet.as_ptr(), packet.len(), buffer.as_mut_ptr(), buffer.len()) }
    }
}

/// Why a packet is refused, in the order in which they are looked at: the first that applies. A refused packet changes nothing.
pub const REFUSALS: [Refusal; 5] = [Refusal::NotAPacket, Refusal::OtherPid, Refusal::Scrambled, Refusal::PayloadOutside, Refusal::SectionLengthTooLarge];

/// What a packet that was taken did to the count of packets.
#[derive(Debug, Clone, Copy, PartialEq, Eq, Hash)]
pub enum Continuity {
    /// its counter is the one behind the last, or it is the first with a payload
    Follows,
    /// its counter is another: what was under way was dropped
    Gap,
    /// its counter is the last payload packet's: it added nothing
    Repeat,
    /// it has no payload: it added nothing and left the counter
    NoPayload,
}

/// The assembler of one PID: its state and the section under way.
#[derive(Clone)]
pub struct Assembler {
    state: [u64; PACKET_WORDS],
    buffer: Box<[u8; BUFFER]>,
}

impl Assembler {
    /// Before the first packet. A PID over 8,191 is no packet's.
    pub fn new(pid: u16) -> Assembler {
        let mut state = [0; PACKET_WORDS];
        words::start(pid.into(), &mut state);
        Assembler { state, buffer: Box::new([0; BUFFER]) }
    }

    /// The PID whose sections it gathers.
    pub fn pid(&self) -> u16 {
        self.state[0] as u16
    }

    /// How many bytes of a section stand in the buffer.
    pub fn under_way(&self) -> usize {
        self.state[2] as usize
    }

    /// Takes a packet in, and gives the sections that it finishes one at a time. Those that are not asked for are passed over.
    pub fn feed<'a>(&'a mut self, packet: &'a [u8]) -> Result<Finished<'a>, Refusal> {
        let last = self.state[1];
        match words::feed(&mut self.state, packet, &mut self.buffer[..]) {
            0 => Ok(Finished { continuity: continuity(last, packet[3]), assembler: self, packet, done: false }),
            n => Err(Refusal::answered(n, [0; 3])),
        }
    }

    /// All sections of packets one after the other, each with its packet's place; and the refusals.
    pub fn sections<'a, P: IntoIterator<Item = &'a [u8]>>(&'a mut self, packets: P) -> Sections<'a, P::IntoIter> {
        Sections { assembler: self, packets: packets.into_iter(), packet: None, number: 0 }
    }

    fn take(&mut self, packet: &[u8]) -> Option<usize> {
        match words::take(&mut self.state, packet, &mut self.buffer[..]) {
            0 => None,
            n => Some(n as usize),
        }
    }
}

/// By the last counter (16: none yet) and the fourth byte of a packet that was taken.
fn continuity(last: u64, control: u8) -> Continuity {
    let counter = u64::from(control & 15);
    if control & 0x10 == 0 {
        Continuity::NoPayload
    } else if counter == last {
        Continuity::Repeat
    } else if last < 16 && counter != (last + 1) % 16 {
        Continuity::Gap
    } else {
        Continuity::Follows
    }
}

/// The sections that a packet finishes.
pub struct Finished<'a> {
    assembler: &'a mut Assembler,
    packet: &'a [u8],
    continuity: Continuity,
    done: bool,
}

impl Finished<'_> {
    /// What the packet's counter said.
    pub fn continuity(&self) -> Continuity {
        self.continuity
    }

    /// The next section, lent until the next call.
    #[allow(clippy::should_implement_trait)]
    pub fn next(&mut self) -> Option<&[u8]> {
        if self.done {
            return None;
        }
        let size = self.assembler.take(self.packet);
        self.done = size.is_none();
        size.map(|n| &self.assembler.buffer[..n])
    }
}

impl Drop for Finished<'_> {
    /// The section that goes on behind the packet is kept by the last call.
    fn drop(&mut self) {
        while self.next().is_some() {}
    }
}

/// The sections of packets one after the other: the packet's place and the section, or why that packet was refused.
pub struct Sections<'a, P> {
    assembler: &'a mut Assembler,
    packets: P,
    packet: Option<&'a [u8]>,
    number: usize,
}

impl<'a, P: Iterator<Item = &'a [u8]>> Iterator for Sections<'a, P> {
    type Item = (usize, Result<Vec<u8>, Refusal>);

    fn next(&mut self) -> Option<Self::Item> {
        loop {
            if let Some(packet) = self.packet {
                if let Some(n) = self.assembler.take(packet) {
                    return Some((self.number - 1, Ok(self.assembler.buffer[..n].to_vec())));
                }
                self.packet = None;
            }
            let packet = self.packets.next()?;
            self.number += 1;
            match words::feed(&mut self.assembler.state, packet, &mut self.assembler.buffer[..]) {
                0 => self.packet = Some(packet),
                n => return Some((self.number - 1, Err(Refusal::answered(n, [0; 3])))),
            }
        }
    }
}

/// What a stream had, packet by packet.
#[derive(Debug, Clone, Default, PartialEq, Eq)]
pub struct Counts {
    /// packets, refused ones too
    pub packets: u64,
    /// packets by refusal, those of 71 first
    pub refused: [u64; 5],
    /// packets of the PID with a payload whose counter is not the one behind the last
    pub gaps: u64,
    /// packets that repeat the last one's counter
    pub repeats: u64,
    /// packets of the PID without payload
    pub without_payload: u64,
    /// sections that were finished
    pub sections: u64,
    /// the first byte of the first packet that is none (71): where the sync is lost
    pub lost_at: Option<u64>,
}

impl Counts {
    /// How many packets were refused so; none for a refusal that is no packet's.
    pub fn refused(&self, r: Refusal) -> u64 {
        REFUSALS.iter().position(|x| *x == r).map_or(0, |i| self.refused[i])
    }
}

/// A stream of packets as it comes, in pieces of any length: the assembler of one PID, and what was counted.
#[derive(Clone)]
pub struct Stream {
    assembler: Assembler,
    counts: Counts,
}

impl Stream {
    /// Before the first packet.
    pub fn new(pid: u16) -> Stream {
        Stream { assembler: Assembler::new(pid), counts: Counts::default() }
    }

    /// What was counted so far.
    pub fn counts(&self) -> &Counts {
        &self.counts
    }

    /// Eats whole packets, and calls `each` with every section and the number of the packet that finished it, from 0. Gives how many bytes were eaten:
    /// fewer than 188 are left.
    pub fn eat(&mut self, bytes: &[u8], mut each: impl FnMut(u64, &[u8])) -> usize {
        let packets = bytes.chunks_exact(PACKET);
        let left = packets.remainder().len();
        packets.for_each(|packet| self.packet(packet, &mut each));
        bytes.len() - left
    }

    fn packet(&mut self, packet: &[u8], each: &mut impl FnMut(u64, &[u8])) {
        let number = self.counts.packets;
        self.counts.packets += 1;
        let mut finished = match self.assembler.feed(packet) {
            Ok(finished) => finished,
            Err(r) => {
                if let Some(i) = REFUSALS.iter().position(|x| *x == r) {
                    self.counts.refused[i] += 1;
                }
                if r == Refusal::NotAPacket {
                    self.counts.lost_at.get_or_insert(number * PACKET as u64);
                }
                return;
            }
        };
        match finished.continuity() {
            Continuity::Follows => {}
            Continuity::Gap => self.counts.gaps += 1,
            Continuity::Repeat => self.counts.repeats += 1,
            Continuity::NoPayload => self.counts.without_payload += 1,
        }
        while let Some(section) = finished.next() {
            self.counts.sections += 1;
            each(number, section);
        }
    }
}

#[cfg(test)]
mod tests {
    use super::*;

    /// PID 100, stuffing behind what is given.
    fn packet(start: bool, counter: u8, payload: &[u8]) -> [u8; PACKET] {
        let mut p = [0xFF; PACKET];
        p[..4].copy_from_slice(&[0x47, if start { 0x40 } else { 0 }, 100, 0x10 | counter]);
        p[4..][..payload.len()].copy_from_slice(payload);
        p
    }

    const SHORT: [u8; 5] = [0xFC, 0x30, 2, 1, 2];

    /// A section of 403 bytes.
    fn long() -> Vec<u8> {
        [&[0xFC, 0x31, 0x90][..], &(0..400).map(|i| i as u8).collect::<Vec<_>>()].concat()
    }

    fn all(packets: &[[u8; PACKET]]) -> Vec<(usize, Result<Vec<u8>, Refusal>)> {
        Assembler::new(100).sections(packets.iter().map(|p| &p[..])).collect()
    }

    /// The long section over three packets.
    fn three() -> [[u8; PACKET]; 3] {
        let s = long();
        [packet(true, 0, &[&[0][..], &s[..183]].concat()), packet(false, 1, &s[183..367]), packet(false, 2, &s[367..])]
    }

    #[test]
    fn two_in_one_packet() {
        let p = packet(true, 0, &[&[0][..], &SHORT, &SHORT].concat());
        assert_eq!(all(&[p]), [(0, Ok(SHORT.to_vec())), (0, Ok(SHORT.to_vec()))]);
    }

    #[test]
    fn one_over_three_packets_with_a_repeat() {
        let [a, b, c] = three();
        assert_eq!(all(&[a, b, b, c]), [(3, Ok(long()))]);
    }

    #[test]
    fn a_gap_drops_what_is_under_way() {
        let [a, _, c] = three();
        let next = packet(true, 3, &[&[0][..], &SHORT].concat());
        assert_eq!(all(&[a, c, next]), [(2, Ok(SHORT.to_vec()))]);
    }

    #[test]
    fn a_new_start_cuts_short() {
        let [a, _, _] = three();
        let next = packet(true, 1, &[&[0][..], &SHORT].concat());
        assert_eq!(all(&[a, next]), [(1, Ok(SHORT.to_vec()))]);
    }

    #[test]
    fn refusals_change_nothing() {
        let [a, b, c] = three();
        let mut sync = b;
        sync[0] = 0x48;
        let mut pid = b;
        pid[2] = 101;
        let mut scrambled = b;
        scrambled[3] |= 0x40;
        let outside = packet(true, 1, &[183]);
        let large = packet(true, 1, &[0, 0xFC, 0x3F, 0xFE]);
        let told = all(&[a, sync, pid, scrambled, outside, large, b, c]);
        let refused = REFUSALS.iter().enumerate().map(|(i, r)| (i + 1, Err(*r)));
        assert_eq!(told, refused.chain([(7, Ok(long()))]).collect::<Vec<_>>());
        assert_eq!(REFUSALS.map(|r| r.number()), [71, 72, 73, 74, 75]);
        assert_eq!(Assembler::new(100).feed(&b[..187]).err(), Some(Refusal::NotAPacket));
    }

    #[test]
    fn sections_that_are_not_asked_for_are_passed_over() {
        let s = long();
        let first = packet(true, 0, &[&[0][..], &SHORT, &s[..178]].concat());
        let mut a = Assembler::new(100);
        drop(a.feed(&first));
        assert_eq!(a.under_way(), 178);
        drop(a.feed(&packet(false, 1, &s[178..362])));
        assert_eq!(a.feed(&packet(false, 2, &s[362..])).unwrap().next(), Some(&s[..]));
    }

    #[test]
    fn no_packet_has_a_pid_over_13_bits() {
        assert_eq!(Assembler::new(8192 + 100).feed(&packet(true, 0, &SHORT)).err(), Some(Refusal::OtherPid));
    }

    #[test]
    fn a_stream_is_counted() {
        let [a, b, c] = three();
        let mut without = c;
        without[3] = 0x20;
        without[4] = 183;
        let mut lost = b;
        lost[0] = 0;
        let bytes = [a, b, b, without, c, lost, a].concat();
        let mut stream = Stream::new(100);
        let mut got = vec![];
        let eaten = stream.eat(&[&bytes[..], &[0x47, 1]].concat(), |n, s| got.push((n, s.to_vec())));
        assert_eq!((eaten, got), (bytes.len(), vec![(4, long())]));
        let counts = stream.counts();
        assert_eq!((counts.packets, counts.sections, counts.gaps, counts.repeats, counts.without_payload), (7, 1, 1, 1, 1));
        assert_eq!((counts.refused(Refusal::NotAPacket), counts.lost_at), (1, Some(5 * 188)));
    }

    #[test]
    fn any_words_and_any_buffer_are_answered() {
        let p = packet(true, 0, &[&[0][..], &SHORT].concat());
        for state in [&mut [][..], &mut [100], &mut [100, 16], &mut [100, 16, 0], &mut [u64::MAX; 9], &mut [100, 15, u64::MAX, u64::MAX]] {
            let before = state.to_vec();
            for room in [0, 1, 4, 4096] {
                let mut buffer = vec![7; room];
                let refusal = words::feed(state, &p, &mut buffer);
                assert!(refusal == 0 || state == before);
                assert!(words::take(state, &p, &mut buffer) <= 4096);
                state.copy_from_slice(&before);
            }
        }
    }
}
