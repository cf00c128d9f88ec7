//! Descriptor loops, step by step.
use crate::make::{self, CUEI};
use crate::rng::Rng;
use crate::run::Run;

/// Every length byte with as many bytes left as decide its case, every tag, every pair of flags of a segmentation at every size.
pub fn short(run: &mut Run, rng: &mut Rng) {
    for size in 0..=6 {
        for fill in [0x00, 0x02, 0xFF] {
            run.descriptors(&vec![fill; size], &[1, 2, 3]);
        }
    }
    for length in 0..=255usize {
        for size in [6, 7, 8, length, length + 1, length + 2, length + 3, length + 7, length + 8, length + 9] {
            for tag in [0, 1, 2, 3, 9] {
                let mut bytes = rng.bytes(size);
                for (place, byte) in bytes.iter_mut().zip([tag, length as u8].into_iter().chain(CUEI)) {
                    *place = byte;
                }
                run.descriptors(&bytes, &[]);
            }
        }
    }
    for tag in 0..=255 {
        for size in 0..=14 {
            run.descriptors(&make::framed(tag, CUEI, &rng.bytes(size)), &[]);
            run.descriptors(&make::framed(tag, *b"CUEJ", &rng.bytes(size)), &[]);
        }
    }
    for flags in 0..=255 {
        for size in 5..=34 {
            for fill in [Some(0), Some(1), Some(8), None] {
                let mut payload = fill.map_or_else(|| rng.bytes(size), |b| vec![b; size]);
                payload[4] &= 0x7F;
                if size > 5 {
                    payload[5] = flags;
                }
                if size > 6 && flags & 0x80 == 0 {
                    payload[6] %= 4;
                }
                run.descriptors(&make::framed(2, CUEI, &payload), &[]);
            }
        }
    }
    // sizes about the limit: many small items, few large ones
    for size in [4070, 4075, 4076, 4077, 4078, 5000] {
        let small = make::framed(0, CUEI, &[0, 0, 1, 53]);
        let large = make::framed(9, CUEI, &rng.bytes(250));
        for piece in [small, large] {
            let bytes: Vec<u8> = piece.iter().copied().cycle().take(size).collect();
            run.descriptors(&bytes, &[5, size - 1]);
        }
    }
}

pub fn random(run: &mut Run, rng: &mut Rng, count: usize) {
    for turn in 0..count {
        let room = if turn % 1000 == 0 { 4076 } else { rng.between(10, 600) };
        let bytes = make::items(rng, room);
        let bytes = if rng.one_in(3) { bytes } else { make::damaged(rng, bytes) };
        let beside = [rng.below(bytes.len() + 1), rng.below(bytes.len() + 1)];
        run.descriptors(&bytes, &beside);
    }
}
