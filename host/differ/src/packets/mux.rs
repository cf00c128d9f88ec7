//! A multiplexer: cuts sections into transport packets of one PID, with adaptation fields of any length, pointers, stuffing, and packets without
//! payload between them.
use crate::rng::Rng;
use std::collections::VecDeque;

pub type Packet = Vec<u8>;

/// How packets are laid.
#[derive(Clone, Copy)]
pub struct Style {
    /// one packet in so many has an adaptation field beside its payload; 0: none
    pub adaptation: usize,
    /// one packet in so many is followed by one of the PID without payload; 0: none
    pub empty: usize,
    /// a section that ends is followed by another in the same packet, but for one in so many; 0: always
    pub stuffing: usize,
}

pub struct Mux {
    pid: u16,
    counter: u8,
    style: Style,
    waiting: VecDeque<Vec<u8>>,
    /// the rest of the section that is being laid
    rest: Vec<u8>,
}

impl Mux {
    pub fn new(pid: u16, style: Style, first: u8) -> Mux {
        Mux { pid, counter: first, style, waiting: VecDeque::new(), rest: vec![] }
    }

    pub fn add(&mut self, section: Vec<u8>) {
        self.waiting.push_back(section);
    }

    pub fn is_empty(&self) -> bool {
        self.waiting.is_empty() && self.rest.is_empty()
    }

    fn head(&self, start: bool, control: u8) -> Vec<u8> {
        vec![0x47, (self.pid >> 8) as u8 | if start { 0x40 } else { 0 }, self.pid as u8, control | self.counter]
    }

    /// An adaptation field of `n` bytes behind its length.
    fn adaptation(rng: &mut Rng, n: usize) -> Vec<u8> {
        let mut field = vec![n as u8];
        if n > 0 {
            // the discontinuity indicator, too, which nobody looks at
            field.push(if rng.one_in(6) { 0x80 } else { 0 });
            field.resize(n + 1, 0xFF);
        }
        field
    }

    /// As much of the section that is being laid as there is room for.
    fn lay(&mut self, packet: &mut Packet) {
        let n = self.rest.len().min(188 - packet.len());
        packet.extend(self.rest.drain(..n));
    }

    /// The next packets: one with payload, and perhaps one without behind it.
    pub fn next(&mut self, rng: &mut Rng) -> Vec<Packet> {
        let field = match self.style.adaptation {
            0 => None,
            k => rng.one_in(k).then(|| rng.between(0, 182)),
        };
        let room = 184 - field.map_or(0, |n| n + 1);
        // a section begins here if its first byte and the pointer have room behind the one that ends
        let start = !self.waiting.is_empty() && self.rest.len() + 2 <= room && (self.rest.is_empty() || self.goes_on(rng));
        let mut packet = self.head(start, if field.is_some() { 0x30 } else { 0x10 });
        self.counter = (self.counter + 1) % 16;
        packet.extend(field.map_or(vec![], |n| Mux::adaptation(rng, n)));
        if start {
            packet.push(self.rest.len() as u8);
        }
        self.lay(&mut packet);
        if start {
            loop {
                self.rest = self.waiting.pop_front().expect("a section waits");
                self.lay(&mut packet);
                if packet.len() == 188 || self.waiting.is_empty() || !self.goes_on(rng) {
                    break;
                }
            }
        }
        packet.resize(188, 0xFF);
        let mut out = vec![packet];
        if self.style.empty > 0 && rng.one_in(self.style.empty) {
            out.push(self.without(rng));
        }
        out
    }

    fn goes_on(&self, rng: &mut Rng) -> bool {
        self.style.stuffing == 0 || !rng.one_in(self.style.stuffing)
    }

    /// A packet without payload: its counter is that of the packet before it.
    fn without(&self, rng: &mut Rng) -> Packet {
        let mut packet = self.head(false, 0x20);
        packet[3] = 0x20 | (self.counter + 15) % 16;
        packet.extend(Mux::adaptation(rng, 183));
        packet
    }
}
