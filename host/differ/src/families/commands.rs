//! Commands, each in its payload alone.
use crate::make;
use crate::rng::Rng;
use crate::run::Run;

/// Every type with short payloads, every first byte of a time signal, and every pair of flag bytes of an insert at every length.
pub fn short(run: &mut Run, rng: &mut Rng) {
    for kind in 0..=255 {
        for size in 0..=9 {
            run.command(kind, &vec![0xFF; size]);
            run.command(kind, &vec![0x00; size]);
        }
    }
    for first in 0..=255 {
        for size in 1..=8 {
            let mut payload = rng.bytes(size);
            payload[0] = first;
            run.command(0x06, &payload);
        }
    }
    for size in 0..=32 {
        for flags in 0..=255 {
            for fill in [Some(0x00), Some(0x7F), Some(0xFF), None] {
                let mut payload = fill.map_or_else(|| rng.bytes(size), |b| vec![b; size]);
                if size > 4 {
                    payload[4] = if fill == Some(0xFF) { 0xFF } else { payload[4] & 0x7F };
                }
                if size > 5 {
                    payload[5] = flags;
                }
                if size > 6 && flags & 0x40 == 0 {
                    payload[6] %= 5;
                }
                run.command(0x05, &payload);
            }
        }
    }
    for cancel in 0..=255 {
        run.command(0x05, &[1, 2, 3, 4, cancel, 0x5F, 0, 1, 2, 3]);
    }
}

pub fn random(run: &mut Run, rng: &mut Rng, count: usize) {
    for _ in 0..count {
        let (kind, payload) = make::command(rng);
        let payload = if rng.one_in(3) { payload } else { make::damaged(rng, payload) };
        run.command(kind, &payload);
    }
}
