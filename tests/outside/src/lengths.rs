//! Damage to the lengths lent, aimed at question 11.

use crate::call::{Call, COUNTS, ROW, WORDS};
use crate::random::Random;
use crate::scene::{pair_at, HEADER, SIZES};

fn length(rng: &mut Random, right: usize) -> usize {
    let choices = [
        right + 1,
        right.saturating_sub(1),
        0,
        right * 2,
        right + 65_536,
    ];
    rng.pick(&choices)
}

pub fn picture_length(call: &mut Call, rng: &mut Random) {
    let (width, height) = (call.tile.width, call.tile.height);
    call.picture_len = match rng.below(3) {
        0 => usize::from(width.max(height)),
        _ => length(rng, call.picture_len.min(40_000)),
    };
}

pub fn counts_length(call: &mut Call, rng: &mut Random) {
    call.counts_len = length(rng, COUNTS);
}

/// The patch table too short or too long, or as long as something else of the
/// scene or the call.
pub fn table_length(call: &mut Call, rng: &mut Random) {
    if rng.once_in(6) {
        // Lent the wrong way round.
        std::mem::swap(&mut call.counts_len, &mut call.patch_counts_len);
        return;
    }
    let told = |k: usize| match call.scene.len() < HEADER {
        true => 0,
        false => (pair_at(&call.scene, k).1 as usize / SIZES[k]).min(5_000),
    };
    let others = [COUNTS, 1_024, told(0), told(2), 6 * told(1)];
    call.patch_counts_len = match rng.below(3) {
        0 => rng.pick(&others),
        _ => length(rng, call.patch_counts_len),
    };
}

pub fn unlit_length(call: &mut Call, rng: &mut Random) {
    call.unlit_len = match rng.below(3) {
        0 => usize::from(call.tile.height.min(128)),
        1 => ROW,
        _ => length(rng, call.unlit_len.min(40_000)),
    };
}

/// The map too short or too long, of another number of words a row, or as long as
/// something else that is lent.
pub fn map_length(call: &mut Call, rng: &mut Random) {
    if rng.once_in(8) {
        // Lent the wrong way round.
        std::mem::swap(&mut call.unlit_len, &mut call.lit_len);
        return;
    }
    let [width, height] = [call.tile.width, call.tile.height].map(usize::from);
    let height = height.min(256);
    let right = height * WORDS;
    let others = [
        height,
        height * width.min(256).div_ceil(64),
        height * ROW,
        height * 32,
        width * WORDS,
        WORDS,
        128 * WORDS,
        ROW,
    ];
    call.lit_len = match rng.below(4) {
        0 => rng.pick(&others),
        1 => right + rng.below(2 * WORDS),
        2 => right.saturating_sub(rng.below(2 * WORDS)),
        _ => length(rng, right),
    };
}

/// Each length just inside and just outside, and two questions at once.
pub fn ends_of_lengths(call: &Call) -> Vec<Call> {
    let mut all = Vec::new();
    for step in [-1, 1] {
        let others: [&dyn Fn(&mut Call); 8] = [
            &|c| c.picture_len = stepped(c.picture_len, step),
            &|c| c.counts_len = stepped(c.counts_len, step),
            &|c| c.patch_counts_len = stepped(c.patch_counts_len, step),
            &|c| c.unlit_len = stepped(c.unlit_len, step),
            &|c| c.unlit_len = stepped(c.unlit_len, 256 * step),
            &|c| c.lit_len = stepped(c.lit_len, step),
            &|c| c.lit_len = stepped(c.lit_len, 3 * step),
            &|c| c.lit_len = stepped(c.lit_len, 4 * step),
        ];
        all.extend(others.map(|other| call.with(other)));
    }
    all.extend(lengths_of_the_table(call));
    all.extend(lengths_of_the_map(call));
    all
}

/// The patch table of other lengths, and with it a no to another question.
fn lengths_of_the_table(call: &Call) -> Vec<Call> {
    let others: [&dyn Fn(&mut Call); 8] = [
        &|c| c.patch_counts_len = 0,
        &|c| c.patch_counts_len = 1_024,
        &|c| c.patch_counts_len = c.counts_len,
        &|c| (c.counts_len, c.patch_counts_len) = (c.patch_counts_len, c.counts_len),
        &|c| (c.patch_counts_len, c.counter) = (c.patch_counts_len + 1, u32::MAX),
        &|c| (c.patch_counts_len, c.view.lens) = (c.patch_counts_len + 1, 0),
        &|c| (c.patch_counts_len, c.picture_len) = (c.patch_counts_len + 1, 0),
        &|c| (c.patch_counts_len, c.scene) = (c.patch_counts_len + 1, c.scene[1..].into()),
    ];
    others.map(|other| call.with(other)).into()
}

/// The same of the map.
fn lengths_of_the_map(call: &Call) -> Vec<Call> {
    let others: [&dyn Fn(&mut Call); 10] = [
        &|c| c.lit_len = 0,
        &|c| c.lit_len = usize::from(c.tile.height),
        &|c| c.lit_len = c.unlit_len,
        &|c| (c.unlit_len, c.lit_len) = (c.lit_len, c.unlit_len),
        &|c| (c.lit_len, c.counter) = (c.lit_len + 1, u32::MAX),
        &|c| (c.lit_len, c.view.lens) = (c.lit_len + 1, 0),
        &|c| (c.lit_len, c.view.axes.up) = (c.lit_len + 1, c.view.axes.forward),
        &|c| (c.lit_len, c.picture_len) = (c.lit_len + 1, 0),
        &|c| (c.lit_len, c.patch_counts_len) = (c.lit_len + 1, c.patch_counts_len + 1),
        &|c| (c.lit_len, c.scene) = (c.lit_len + 1, c.scene[1..].into()),
    ];
    others.map(|other| call.with(other)).into()
}

pub fn stepped(length: usize, step: isize) -> usize {
    length.saturating_add_signed(step)
}

/// Lengths that only the gate can be asked about: nobody lends so much.
pub fn beyond_memory(call: &mut Call, rng: &mut Random) {
    let add = rng.pick(&[1 << 16, 1 << 32, 1 << 48, 1 << 63]);
    let place = match rng.below(5) {
        0 => &mut call.picture_len,
        1 => &mut call.counts_len,
        2 => &mut call.patch_counts_len,
        3 => &mut call.unlit_len,
        _ => &mut call.lit_len,
    };
    *place = match rng.once_in(4) {
        true => usize::MAX,
        false => place.wrapping_add(add),
    };
}
