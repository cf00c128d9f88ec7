//! The open-break board of two channels: an event id for each provider id while its break is open. Each channel has its own ids; what one opens or closes
//! never changes what the other is told.
//!
//! ```
//! use scte35::{board::Board, Refusal};
//!
//! let mut board = Board::new();
//! let event = board.open(0, 0x1234)?;
//! assert_eq!(event, 1);
//! assert_eq!(board.open(1, 0x5678)?, 1);
//! assert_eq!(board.close(0, event)?, 0x1234);
//! assert_eq!(board.close(0, event), Err(Refusal::NotOpen));
//! assert_eq!(board.open(2, 0x1234), Err(Refusal::NoSuchChannel));
//! # Ok::<(), Refusal>(())
//! ```
use crate::Refusal;
use std::fmt;

/// How many words a board has over C.
pub const WORDS: usize = 66;

/// How many breaks a channel may hold.
pub const CHANNEL_BREAKS: usize = 16;

/// The C functions, as `include/scte35.h` declares them.
pub mod raw {
    /// What a call answers.
    #[repr(C)]
    #[derive(Debug, Clone, Copy, PartialEq, Eq)]
    pub struct BoardAnswer {
        /// 0, or the number of a refusal
        pub refusal: u64,
        /// to an opening the event id, to a closing the provider id
        pub id: u64,
    }

    #[allow(missing_docs)]
    extern "C" {
        pub fn scte35_board_empty(board: *mut u64, board_words: usize) -> BoardAnswer;
        pub fn scte35_board_open(board: *mut u64, board_words: usize, channel: u8, provider_id: u32) -> BoardAnswer;
        pub fn scte35_board_close(board: *mut u64, board_words: usize, channel: u8, event_id: u32) -> BoardAnswer;
    }
}

/// Breaks now open, each with its channel, event id and provider id.
#[derive(Clone, PartialEq, Eq)]
pub struct Board([u64; WORDS]);

impl Board {
    /// No break is open, and the next event id of either channel is 1.
    pub fn new() -> Board {
        let mut words = [0; WORDS];
        unsafe { raw::scte35_board_empty(words.as_mut_ptr(), WORDS) };
        Board(words)
    }

    /// A board of words that were kept. Any words are a board.
    pub fn of_words(words: [u64; WORDS]) -> Board {
        Board(words)
    }

    /// The words, to be kept.
    pub fn words(&self) -> &[u64; WORDS] {
        &self.0
    }

    /// Opens a break of a channel for this provider id and gives its event id.
    pub fn open(&mut self, channel: u8, provider_id: u32) -> Result<u32, Refusal> {
        answered(unsafe { raw::scte35_board_open(self.0.as_mut_ptr(), WORDS, channel, provider_id) })
    }

    /// Closes the channel's break with this event id and gives its provider id back.
    pub fn close(&mut self, channel: u8, event_id: u32) -> Result<u32, Refusal> {
        answered(unsafe { raw::scte35_board_close(self.0.as_mut_ptr(), WORDS, channel, event_id) })
    }
}

impl Default for Board {
    fn default() -> Board {
        Board::new()
    }
}

impl fmt::Debug for Board {
    fn fmt(&self, f: &mut fmt::Formatter<'_>) -> fmt::Result {
        f.write_str("Board(..)")
    }
}

fn answered(a: raw::BoardAnswer) -> Result<u32, Refusal> {
    match a.refusal {
        0 => Ok(a.id as u32),
        n => Err(Refusal::answered(n, [0; 3])),
    }
}

#[cfg(test)]
mod tests {
    use super::*;

    /// Numbers that look random.
    struct Random(u64);

    impl Random {
        fn below(&mut self, n: u64) -> u64 {
            self.0 = self.0.wrapping_mul(6_364_136_223_846_793_005).wrapping_add(1_442_695_040_888_963_407);
            (self.0 >> 33) % n
        }

        fn word(&mut self) -> u64 {
            self.below(1 << 31) << 40 ^ self.below(1 << 31) << 20 ^ self.below(1 << 31)
        }
    }

    /// Document 02's plain list, of one channel: open breaks in the order of their opening, and a next id.
    struct Plain {
        held: Vec<(u32, u32)>,
        next: u32,
    }

    impl Plain {
        fn open(&mut self, provider: u32) -> Result<u32, Refusal> {
            if self.held.len() == CHANNEL_BREAKS {
                return Err(Refusal::BoardFull);
            }
            let mut event = self.next;
            while self.held.iter().any(|b| b.0 == event) {
                event = event.wrapping_add(1);
            }
            self.held.push((event, provider));
            self.next = event.wrapping_add(1);
            Ok(event)
        }

        fn close(&mut self, event: u32) -> Result<u32, Refusal> {
            let at = self.held.iter().position(|b| b.0 == event).ok_or(Refusal::NotOpen)?;
            Ok(self.held.remove(at).1)
        }
    }

    #[test]
    fn answers_are_those_of_two_plain_lists() {
        let mut random = Random(1);
        let mut told_of = [0; 5];
        for run in 0..200u32 {
            let mut board = Board::new();
            let mut plain = [1, 1].map(|next| Plain { held: Vec::new(), next });
            if run % 4 > 0 {
                // shortly before the wrap
                plain[0].next = u32::MAX - 40 * (run % 4);
                let mut words = *board.words();
                words[WORDS - 2] = plain[0].next.into();
                board = Board::of_words(words);
            }
            // some runs fill the board, some empty it
            let bias = 2 + random.below(7);
            for _ in 0..1000 {
                let before = board.clone();
                let channel = match random.below(16) {
                    0 => 2 + random.below(254) as u8,
                    n => (n % 2) as u8,
                };
                let list = plain.get_mut(channel as usize);
                let (told, expected) = if random.below(10) < bias {
                    let provider = random.below(3) as u32 * 0x7FFF_FFFF;
                    (board.open(channel, provider), list.map(|l| l.open(provider)))
                } else {
                    let held = list.as_ref().map_or(&[][..], |l| &l.held);
                    let event = match held.len() as u64 {
                        n if n > 0 && random.below(4) > 0 => held[random.below(n) as usize].0,
                        _ => list.as_ref().map_or(0, |l| l.next).wrapping_add(random.below(40) as u32).wrapping_sub(20),
                    };
                    (board.close(channel, event), list.map(|l| l.close(event)))
                };
                assert_eq!(told, expected.unwrap_or(Err(Refusal::NoSuchChannel)));
                assert!(told.is_ok() || board == before);
                told_of[told.map_or_else(|r| r.number() as usize - 60, |_| 0)] += 1;
            }
        }
        println!("200,000 calls: {} accepted, refused {} with 61, {} with 62, {} with 63", told_of[0], told_of[1], told_of[2], told_of[3]);
        assert!(told_of[..4].iter().all(|n| *n > 5_000));
    }

    /// One channel hears the same whatever the other does.
    #[test]
    fn a_channel_hears_its_own_calls_alone() {
        let mut random = Random(3);
        for _ in 0..100 {
            let (mut shared, mut alone) = (Board::new(), Board::new());
            for _ in 0..400 {
                let number = random.below(24) as u32;
                let opens = random.below(3) > 0;
                let call = |b: &mut Board, channel| if opens { b.open(channel, number) } else { b.close(channel, number) };
                if random.below(2) == 0 {
                    assert_eq!(call(&mut shared, 0), call(&mut alone, 0));
                } else {
                    let _ = call(&mut shared, 1 + random.below(2) as u8);
                }
            }
        }
    }

    /// What a run of words says: for each place whether it is taken, its channel, its event id and its provider id; and the next ids.
    fn read(words: &[u64]) -> (Vec<(bool, u8, u32, u32)>, [u32; 2]) {
        let place = |i: usize| (words[32 + i] % 2 == 1, (words[32 + i] >> 1) as u8, (words[i] >> 32) as u32, words[i] as u32);
        ((0..32).map(place).collect(), [words[64] as u32, words[65] as u32])
    }

    #[test]
    fn any_words_are_a_board() {
        let mut random = Random(2);
        let (mut accepted, mut refused, mut crowded) = (0, 0, 0);
        for _ in 0..20_000 {
            let mut words: Vec<u64> = (0..WORDS + 3).map(|_| random.word()).collect();
            if random.below(4) > 0 {
                // ids that meet: some twice, and many from the next ids on; places of channels 0 to 2
                for w in &mut words[..32] {
                    *w = random.below(40) << 32 | random.below(9);
                }
                let free = random.below(5);
                for w in &mut words[32..64] {
                    *w = *w << 9 | random.below(3) << 1 | u64::from(random.below(4) >= free);
                }
                words[64] = random.below(40);
                words[65] = random.below(40);
            }
            let (places, next) = read(&words);
            let channel = random.below(20) as u8 % 3;
            let mine = |id: u32| places.iter().position(|p| p.0 && p.1 == channel && p.2 == id);
            let held = places.iter().filter(|p| p.0 && p.1 == channel).count();
            let mut after = words.clone();
            let number = random.below(40) as u32;
            let (told, expected, later) = if random.below(2) == 0 {
                let told = unsafe { raw::scte35_board_open(after.as_mut_ptr(), after.len(), channel, number) };
                match places.iter().position(|p| !p.0) {
                    _ if channel > 1 => (told, (63, 0), None),
                    _ if held >= 16 => (told, (61, 0), None),
                    // a board that no calls make: no place is free, though the channel holds fewer than 16
                    None => {
                        crowded += 1;
                        (told, (61, 0), None)
                    }
                    Some(at) => {
                        let id = (0..=16).map(|i| next[channel as usize].wrapping_add(i)).find(|id| mine(*id).is_none()).unwrap();
                        let mut later = (places.clone(), next);
                        later.0[at] = (true, channel, id, number);
                        later.1[channel as usize] = id.wrapping_add(1);
                        (told, (0, id), Some(later))
                    }
                }
            } else {
                let told = unsafe { raw::scte35_board_close(after.as_mut_ptr(), after.len(), channel, number) };
                match mine(number) {
                    _ if channel > 1 => (told, (63, 0), None),
                    None => (told, (62, 0), None),
                    Some(at) => {
                        let mut later = (places.clone(), next);
                        later.0[at] = (false, places[at].1, 0, 0);
                        (told, (0, places[at].3), Some(later))
                    }
                }
            };
            assert_eq!((told.refusal, told.id), (expected.0, expected.1.into()));
            match later {
                None => {
                    assert_eq!(after, words);
                    refused += 1;
                }
                Some(later) => {
                    assert_eq!(read(&after), later);
                    assert_eq!(after[WORDS..], words[WORDS..]);
                    accepted += 1;
                }
            }
        }
        println!("20,000 calls on any words: {accepted} accepted, {refused} refused, of these {crowded} for want of a place");
        assert!(accepted > 3_000 && refused > 3_000 && crowded > 100);
    }

    #[test]
    fn a_shorter_run_is_refused() {
        for n in 0..WORDS {
            let mut words = vec![7; n];
            for told in unsafe {
                [
                    raw::scte35_board_empty(words.as_mut_ptr(), n),
                    raw::scte35_board_open(words.as_mut_ptr(), n, 0, 1),
                    raw::scte35_board_close(words.as_mut_ptr(), n, 2, 1),
                ]
            } {
                assert_eq!((told.refusal, told.id), (36, 0));
            }
            assert!(words.iter().all(|w| *w == 7));
        }
    }
}
