//! UPIDs alone, of the type as written.
use crate::make;
use crate::rng::Rng;
use crate::run::Run;

/// The types that either side treats each in its own way when the length is wrong or not tested; the others go with one of them.
const UNLIKE: [u8; 6] = [0, 2, 9, 12, 13, 15];

/// Every type with every content of at most one byte; the unlike ones with two, a MID with three (some values of the last). With `long`, every
/// type with every content of two bytes and the unlike ones with every content of three.
pub fn short(run: &mut Run, long: bool) {
    for kind in 0..=255u8 {
        run.upid(kind, &[]);
        for a in 0..=255 {
            run.upid(kind, &[a]);
            if long || UNLIKE.contains(&kind) {
                for b in 0..=255 {
                    run.upid(kind, &[a, b]);
                }
            }
        }
        for size in 3..=255 {
            run.upid(kind, &vec![b'A'; size]);
        }
        for size in [256, 257, 300, 4096] {
            run.upid(kind, &vec![b'A'; size]);
        }
        // an ISAN's, an EIDR's length: all zero
        run.upid(kind, &[0; 8]);
        run.upid(kind, &[0; 12]);
    }
    let some = [0x00, 0x01, 0x0D, 0x3A, 0x41, 0x7F, 0x80, 0xFF];
    let every: Vec<u8> = (0..=255).collect();
    let (kinds, lasts) = if long { (&UNLIKE[..], &every[..]) } else { (&[13][..], &some[..]) };
    for kind in kinds {
        for a in 0..=255 {
            for b in 0..=255 {
                for c in lasts {
                    run.upid(*kind, &[a, b, *c]);
                }
            }
        }
    }
}

/// Text with every four bytes of those at which UTF-8's rules turn, at the start, in the middle and at the end.
pub fn characters(run: &mut Run) {
    const TURNS: [u8; 22] =
        [0x00, 0x41, 0x7F, 0x80, 0x8F, 0x90, 0x9F, 0xA0, 0xBF, 0xC1, 0xC2, 0xDF, 0xE0, 0xE1, 0xED, 0xEE, 0xEF, 0xF0, 0xF1, 0xF4, 0xF5, 0xFF];
    for a in TURNS {
        for b in TURNS {
            for c in TURNS {
                for d in TURNS {
                    let (kind, place) = match (a ^ b ^ c ^ d) % 3 {
                        0 => (2, 0),
                        1 => (3, 5),
                        _ => (7, 8),
                    };
                    let mut text = vec![b'x'; if kind == 2 { 8 } else { 12 }];
                    text[place..place + 4].copy_from_slice(&[a, b, c, d]);
                    run.upid(kind, &text);
                }
            }
        }
    }
}

/// MIDs inside MIDs, to 128 levels: whole, one byte short, one byte over, with a faulty innermost part.
pub fn deep(run: &mut Run, rng: &mut Rng) {
    let inners: [&[u8]; 8] = [b"", &[0], &[0, 0], &[8, 3, 1, 2], &[13, 0], &[2, 1, 0x41], &[9, 1, 0xFF], &[15, 0]];
    for levels in 1..=128 {
        for inner in inners {
            if 2 * (levels - 1) + inner.len() > 255 {
                continue;
            }
            let whole = make::nested(levels, inner);
            run.upid(13, &whole);
            run.upid(13, &whole[..whole.len().saturating_sub(1)]);
            run.upid(13, &[&whole[..], &[7]].concat());
            for _ in 0..8 {
                let changed = make::damaged(rng, whole.clone());
                run.upid(13, &changed[..changed.len().min(255)]);
            }
        }
    }
    // as many parts as fit, side by side
    for count in [126, 127] {
        run.upid(13, &[12, 0].repeat(count));
        run.upid(13, &[13, 0].repeat(count));
    }
}

pub fn random(run: &mut Run, rng: &mut Rng, count: usize) {
    for _ in 0..count {
        let room = if rng.one_in(4) { 255 } else { rng.below(80) };
        let (kind, bytes) = if rng.bit() { (13, make::mid(rng, room)) } else { make::upid(rng, room) };
        let bytes = if rng.bit() { bytes } else { make::damaged(rng, bytes) };
        let kind = if rng.one_in(30) { rng.byte() } else { kind };
        run.upid(kind, &bytes[..bytes.len().min(255)]);
    }
}
