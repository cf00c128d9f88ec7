//! Stand-in for crate `hex-slice`: only `plain_hex` with `{:02x}`. Used by Debug alone, and the
//! oracle never prints Debug of a UPID, so its exact text does not matter.
use std::fmt;
pub struct PlainHex<'a>(&'a [u8], bool);
pub trait AsHex {
    fn plain_hex(&self, with_spaces: bool) -> PlainHex<'_>;
}
impl AsHex for [u8] {
    fn plain_hex(&self, with_spaces: bool) -> PlainHex<'_> {
        PlainHex(self, with_spaces)
    }
}
impl fmt::LowerHex for PlainHex<'_> {
    fn fmt(&self, f: &mut fmt::Formatter<'_>) -> fmt::Result {
        for (i, b) in self.0.iter().enumerate() {
            if self.1 && i > 0 {
                f.write_str(" ")?;
            }
            fmt::LowerHex::fmt(b, f)?;
        }
        Ok(())
    }
}

#[cfg(test)]
mod tests {
    use super::AsHex;

    #[test]
    fn plain() {
        assert_eq!(format!("{:02x}", [0u8, 1, 0xAB].plain_hex(false)), "0001ab");
        assert_eq!(format!("{:02x}", [0u8, 1, 0xAB].plain_hex(true)), "00 01 ab");
        assert_eq!(format!("{:02x}", [].plain_hex(true)), "");
    }
}
