//! Numbers that a seed determines (SplitMix64), and choices by them.

pub struct Rng(u64);

impl Rng {
    pub fn new(seed: u64) -> Rng {
        Rng(seed)
    }

    pub fn next(&mut self) -> u64 {
        self.0 = self.0.wrapping_add(0x9E37_79B9_7F4A_7C15);
        let mut z = self.0;
        z = (z ^ (z >> 30)).wrapping_mul(0xBF58_476D_1CE4_E5B9);
        z = (z ^ (z >> 27)).wrapping_mul(0x94D0_49BB_1331_11EB);
        z ^ (z >> 31)
    }

    /// From 0 to `n` - 1.
    pub fn below(&mut self, n: usize) -> usize {
        (self.next() % n as u64) as usize
    }

    pub fn between(&mut self, low: usize, high: usize) -> usize {
        low + self.below(high - low + 1)
    }

    pub fn one_in(&mut self, n: usize) -> bool {
        self.below(n) == 0
    }

    pub fn bit(&mut self) -> bool {
        self.one_in(2)
    }

    pub fn pick<T: Copy>(&mut self, from: &[T]) -> T {
        from[self.below(from.len())]
    }

    /// A byte; the ends of its range more often than the others.
    pub fn byte(&mut self) -> u8 {
        match self.below(8) {
            0 => self.pick(&[0, 1, 0x7F, 0x80, 0xFE, 0xFF]),
            _ => self.next() as u8,
        }
    }

    pub fn bytes(&mut self, n: usize) -> Vec<u8> {
        (0..n).map(|_| self.byte()).collect()
    }

    /// A number of `width` bits; the ends of its range more often than the others.
    pub fn number(&mut self, width: u32) -> u64 {
        let top = u64::MAX >> (64 - width);
        match self.below(6) {
            0 => self.pick(&[0, 1, top - 1, top, top / 2, top / 2 + 1]),
            _ => self.next() & top,
        }
    }
}
