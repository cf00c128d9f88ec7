//! Fields one after another, high bit first.

#[derive(Debug, Clone, Default)]
pub struct Bits {
    pub bytes: Vec<u8>,
    used: usize,
    /// the places of the reserved bits
    pub reserved: Vec<usize>,
}

impl Bits {
    pub fn put(mut self, width: u32, value: u64) -> Bits {
        for k in (0..width).rev() {
            if self.used % 8 == 0 {
                self.bytes.push(0);
            }
            let last = self.bytes.len() - 1;
            self.bytes[last] |= ((value >> k & 1) as u8) << (7 - self.used % 8);
            self.used += 1;
        }
        self
    }

    pub fn flag(self, set: bool) -> Bits {
        self.put(1, set.into())
    }

    pub fn all(mut self, bytes: &[u8]) -> Bits {
        if self.used % 8 == 0 {
            self.bytes.extend(bytes);
            self.used += 8 * bytes.len();
            return self;
        }
        for b in bytes {
            self = self.put(8, u64::from(*b));
        }
        self
    }

    /// Reserved bits, all of them 1.
    pub fn reserved(mut self, width: u32) -> Bits {
        self.reserved.extend(self.used..self.used + width as usize);
        self.put(width, u64::MAX)
    }

    /// The fields of another, which begin at a byte.
    pub fn join(mut self, other: &Bits) -> Bits {
        assert_eq!(self.used % 8, 0, "a whole number of bytes");
        self.reserved.extend(other.reserved.iter().map(|place| self.used + place));
        self.bytes.extend(&other.bytes);
        self.used += other.used;
        self
    }
}
