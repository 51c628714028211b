//! Damage to the bytes themselves, aimed at questions 1 and 2.

// All harms are of one type, also those that keep the length.
#![allow(clippy::ptr_arg)]

use crate::random::Random;
use crate::scene::{pair_at, HEADER, SIZES};

pub type BytesHarm = fn(&mut Vec<u8>, &mut Random);

pub const BYTES: &[(u32, BytesHarm)] = &[
    (1, version_or_zero),
    (1, whole_length),
    (1, cut_or_stretched),
    (1, any_length),
    (2, pair_changed),
    (2, pairs_swapped),
    (2, gap),
    (2, length_shifted),
    (2, too_many),
    (2, cut_to_fit),
    (0, any_byte),
    (0, any_tables),
];

fn put_u16(bytes: &mut [u8], at: usize, number: u16) {
    if let Some(place) = bytes.get_mut(at..at + 2) {
        place.copy_from_slice(&number.to_le_bytes());
    }
}

fn put_u32(bytes: &mut [u8], at: usize, number: u32) {
    if let Some(place) = bytes.get_mut(at..at + 4) {
        place.copy_from_slice(&number.to_le_bytes());
    }
}

/// Makes the whole length equal to the byte count.
fn fit(bytes: &mut [u8]) {
    let length = bytes.len() as u32;
    put_u32(bytes, 4, length);
}

fn version_or_zero(bytes: &mut Vec<u8>, rng: &mut Random) {
    match rng.once_in(2) {
        true => put_u16(bytes, 0, rng.pick(&[0, 2, 256, 257, 65_535])),
        false => put_u16(bytes, 2, rng.pick(&[1, 256, 65_535])),
    }
}

fn whole_length(bytes: &mut Vec<u8>, rng: &mut Random) {
    let length = bytes.len() as u32;
    let step = rng.pick(&[1, u32::MAX, 26, 65_536, 1 << 24, 1 << 31]);
    put_u32(bytes, 4, length.wrapping_add(step));
}

fn cut_or_stretched(bytes: &mut Vec<u8>, rng: &mut Random) {
    let length = match rng.below(4) {
        0 => rng.below(HEADER + 1),
        1 => bytes.len().saturating_sub(1 + rng.below(30)),
        2 => bytes.len() + 1 + rng.below(30),
        _ => rng.pick(&[57_375, 57_376, 57_377, 57_400, 65_536, 65_568]),
    };
    bytes.resize(length, 0);
}

/// Cut or stretched with the whole length true: 1 or 2 by the size.
fn any_length(bytes: &mut Vec<u8>, rng: &mut Random) {
    cut_or_stretched(bytes, rng);
    fit(bytes);
}

fn pair_changed(bytes: &mut Vec<u8>, rng: &mut Random) {
    if bytes.len() < HEADER {
        return;
    }
    let k = rng.below(3);
    let (offset, length) = pair_at(bytes, k);
    let steps = [1, u32::MAX, 6, 26, 6u32.wrapping_neg(), 78, 65_536, 1 << 31];
    let step = rng.pick(&steps);
    match rng.below(3) {
        0 => put_u32(bytes, 8 + 8 * k, offset.wrapping_add(step)),
        1 => put_u32(bytes, 12 + 8 * k, length.wrapping_add(step)),
        _ => {
            // A length that would wrap around to the same end.
            put_u32(bytes, 12 + 8 * k, length.wrapping_add(step));
            put_u32(bytes, 8 + 8 * k, offset.wrapping_sub(step));
        }
    }
}

fn pairs_swapped(bytes: &mut Vec<u8>, rng: &mut Random) {
    if bytes.len() < HEADER {
        return;
    }
    let (one, other) = (8 + 8 * rng.below(3), 8 + 8 * rng.below(3));
    for k in 0..8 {
        bytes.swap(one + k, other + k);
    }
}

/// Bytes of nobody between two sections, or behind the last.
fn gap(bytes: &mut Vec<u8>, rng: &mut Random) {
    if bytes.len() < HEADER {
        return;
    }
    let (k, wide) = (rng.below(4), rng.pick(&[1, 6, 26, 78]));
    let at = match k {
        3 => bytes.len(),
        _ => (pair_at(bytes, k).0 as usize).min(bytes.len()),
    };
    bytes.splice(at..at, vec![0; wide]);
    for later in k..3 {
        let offset = pair_at(bytes, later).0;
        put_u32(bytes, 8 + 8 * later, offset.wrapping_add(wide as u32));
    }
    fit(bytes);
}

/// One section ends later and the next begins later: often no multiple.
fn length_shifted(bytes: &mut Vec<u8>, rng: &mut Random) {
    if bytes.len() < HEADER {
        return;
    }
    let k = rng.below(2);
    let step = rng.pick(&[1, u32::MAX, 6, 26, 78, 78u32.wrapping_neg()]);
    let (here, next) = (pair_at(bytes, k), pair_at(bytes, k + 1));
    put_u32(bytes, 12 + 8 * k, here.1.wrapping_add(step));
    put_u32(bytes, 16 + 8 * k, next.0.wrapping_add(step));
    put_u32(bytes, 20 + 8 * k, next.1.wrapping_sub(step));
}

/// Tables of given counts, all zero but for the header.
fn tables(counts: [usize; 3]) -> Vec<u8> {
    let mut bytes = vec![0; HEADER];
    put_u16(&mut bytes, 0, 1);
    for k in 0..3 {
        let offset = bytes.len() as u32;
        let length = counts[k] * SIZES[k];
        put_u32(&mut bytes, 8 + 8 * k, offset);
        put_u32(&mut bytes, 12 + 8 * k, length as u32);
        bytes.resize(offset as usize + length, 0);
    }
    fit(&mut bytes);
    bytes
}

/// One section just over its most, or just at it.
fn too_many(bytes: &mut Vec<u8>, rng: &mut Random) {
    let over = rng.below(2);
    let mut counts = [0; 3].map(|_: usize| rng.below(50));
    let k = rng.below(3);
    counts[k] = [1_024, 1_024, 4_096][k] + over;
    *bytes = tables(counts);
}

/// The whole ends one corner early, and says so everywhere but in its pairs.
fn cut_to_fit(bytes: &mut Vec<u8>, rng: &mut Random) {
    let less = rng.pick(&[1, 6, 12, 26]);
    bytes.truncate(bytes.len().saturating_sub(less));
    fit(bytes);
}

fn any_byte(bytes: &mut Vec<u8>, rng: &mut Random) {
    for _ in 0..1 + rng.below(3) {
        if !bytes.is_empty() {
            let at = rng.below(bytes.len());
            bytes[at] = match rng.below(3) {
                0 => bytes[at] ^ (1 << rng.below(8)),
                1 => bytes[at].wrapping_add(1),
                _ => rng.next() as u8,
            };
        }
    }
}

/// A right header before bytes of any kind, small ones more often.
fn any_tables(bytes: &mut Vec<u8>, rng: &mut Random) {
    *bytes = tables([0; 3].map(|_: usize| rng.below(8)));
    let mask = rng.pick(&[0, 1, 3, 255]);
    for byte in &mut bytes[HEADER..] {
        *byte = rng.next() as u8 & mask;
    }
}
