//! Bytes as people read them.
use serde::{Serialize, Serializer};
use std::fmt::{self, Display, Write};

/// Bytes as hexadecimal digits, `FC30`.
pub struct Hex<'a>(pub &'a [u8]);

const DIGITS: &[u8; 16] = b"0123456789ABCDEF";

/// How many bytes are turned at a time.
const TURN: usize = 256;

/// The digits of at most `TURN` bytes.
fn digits<'a>(bytes: &[u8], room: &'a mut [u8; 2 * TURN]) -> &'a str {
    for (pair, byte) in room.chunks_exact_mut(2).zip(bytes) {
        pair[0] = DIGITS[usize::from(byte >> 4)];
        pair[1] = DIGITS[usize::from(byte & 15)];
    }
    std::str::from_utf8(&room[..2 * bytes.len()]).unwrap_or_default()
}

impl Display for Hex<'_> {
    fn fmt(&self, f: &mut fmt::Formatter<'_>) -> fmt::Result {
        self.0.chunks(TURN).try_for_each(|turn| f.write_str(digits(turn, &mut [0; 2 * TURN])))
    }
}

impl Serialize for Hex<'_> {
    fn serialize<S: Serializer>(&self, serializer: S) -> Result<S::Ok, S::Error> {
        match self.0.len() {
            0..=TURN => serializer.serialize_str(digits(self.0, &mut [0; 2 * TURN])),
            _ => serializer.collect_str(self),
        }
    }
}

/// Text between quotes, on one line and harmless to a terminal: control characters are escaped.
pub struct Quoted<'a>(pub &'a str);

impl Display for Quoted<'_> {
    fn fmt(&self, f: &mut fmt::Formatter<'_>) -> fmt::Result {
        f.write_char('"')?;
        for c in self.0.chars() {
            match c {
                '"' | '\\' => write!(f, "\\{c}")?,
                c if is_plain(c) => f.write_char(c)?,
                c => write!(f, "{}", c.escape_unicode())?,
            }
        }
        f.write_char('"')
    }
}

/// Not a control character, nor one that turns the direction of text or has no width.
fn is_plain(c: char) -> bool {
    !c.is_control() && !matches!(c, '\u{200B}'..='\u{200F}' | '\u{2028}'..='\u{202E}' | '\u{2060}'..='\u{206F}' | '\u{FEFF}')
}

/// The text of bytes that are text: UTF-8 of plain characters.
pub fn plain(bytes: &[u8]) -> Option<&str> {
    std::str::from_utf8(bytes).ok().filter(|text| text.chars().all(is_plain))
}

#[cfg(test)]
mod tests {
    use super::*;

    #[test]
    fn digits() {
        let bytes: Vec<u8> = (0..1000u32).map(|i| i as u8).collect();
        for n in [0, 1, 2, 255, 256, 257, 1000] {
            let ours = Hex(&bytes[..n]).to_string();
            assert_eq!(ours, hex::encode_upper(&bytes[..n]));
            assert_eq!(serde_json::to_string(&Hex(&bytes[..n])).unwrap(), format!("\"{ours}\""));
        }
    }

    #[test]
    fn quotes() {
        assert_eq!(Quoted("a\"b\\\u{1b}[2Jé\n").to_string(), "\"a\\\"b\\\\\\u{1b}[2Jé\\u{a}\"");
        assert_eq!(plain(b"ABCD"), Some("ABCD"));
        assert_eq!(plain(b"AB\x1b"), None);
        assert_eq!(plain(b"AB\xff"), None);
        assert_eq!(plain("\u{202e}".as_bytes()), None);
    }
}
