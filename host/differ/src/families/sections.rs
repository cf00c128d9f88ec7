//! Whole sections.
use crate::make;
use crate::rng::Rng;
use crate::run::Run;

/// Every size from 0 to 64, with every command length and every loop length that decides a case or fits, for each type of command.
pub fn short(run: &mut Run, rng: &mut Rng) {
    for size in 0..=64usize {
        for fill in [0x00, 0xFC, 0xFF] {
            let mut bytes = vec![fill; size];
            run.section(&bytes);
            if size > 4 {
                bytes[0] = 0xFC;
                run.section(&make::closed_again(bytes));
            }
        }
        if size < 18 {
            continue;
        }
        let left = size - 18;
        for kind in [0x00, 0x01, 0x04, 0x05, 0x06, 0x07, 0xFE, 0xFF] {
            for command in 0..=left + 2 {
                for descriptors in 0..=(left + 2).saturating_sub(command) {
                    run.section(&shaped(rng, size, kind, command, descriptors));
                }
            }
        }
    }
}

/// A section of that size whose fields say these lengths; the rest at random, its CRC right.
fn shaped(rng: &mut Rng, size: usize, kind: u8, command: usize, descriptors: usize) -> Vec<u8> {
    let mut bytes = rng.bytes(size);
    bytes[0] = 0xFC;
    bytes[4] &= 0x7F;
    bytes[11] = bytes[11] & 0xF0 | (command >> 8) as u8;
    bytes[12] = command as u8;
    bytes[13] = kind;
    if 14 + command + 2 <= size - 4 {
        bytes[14 + command] = (descriptors >> 8) as u8;
        bytes[14 + command + 1] = descriptors as u8;
    }
    make::closed_again(bytes)
}

/// Sizes about every limit: of the section, of the command's length field, of the loop's.
pub fn long(run: &mut Run, rng: &mut Rng) {
    for size in [255, 256, 257, 1024, 4075, 4076, 4077, 4094, 4095, 4096, 4097, 4098, 5000] {
        let room = size - 20;
        let private = make::private(rng, (room - 4).min(4091));
        let spare = vec![0x5A; room - private.len()];
        run.section(&make::section(rng, 0xFF, &private, &[], &spare));
        let small = make::framed(0, make::CUEI, &[0, 0, 1, 53]);
        let items: Vec<u8> = small.iter().copied().cycle().take(room).collect();
        run.section(&make::section(rng, 0x00, &[], &items, &[]));
        run.section(&make::section(rng, 0x00, &[], &[], &vec![0xA5; room]));
        let mut other = make::section(rng, 0x00, &[], &items, &[]);
        other[0] = 0xFD;
        run.section(&other);
        for (command, descriptors) in [(room + 1, 0), (room + 2, 0), (room + 3, 0), (4095, 0), (0, room + 1), (0, 65535), (room / 2, room / 2 + 1)] {
            if command < 4096 {
                run.section(&shaped(rng, size, 0xFF, command, descriptors));
            }
        }
    }
}

pub fn random(run: &mut Run, rng: &mut Rng, count: usize) {
    for turn in 0..count {
        let (kind, command) = make::command(rng);
        let items = make::items(rng, if turn % 500 == 0 { 3800 } else { 300 });
        let spare = if rng.one_in(6) { rng.bytes(3) } else { vec![] };
        let section = make::section(rng, kind, &command, &items, &spare);
        match rng.below(8) {
            0 | 1 => run.section(&section),
            // a damaged copy, its CRC wrong
            2 => run.section(&make::damaged(rng, section)),
            // an item or the command damaged, all lengths right
            3 | 4 => {
                let items = make::damaged(rng, items);
                run.section(&make::section(rng, kind, &command, &items, &spare));
            }
            5 => {
                let command = make::damaged(rng, command);
                run.section(&make::section(rng, kind, &command, &items, &spare));
            }
            // anything damaged, its CRC put right
            _ => run.section(&make::refitted(rng, section)),
        }
    }
}
