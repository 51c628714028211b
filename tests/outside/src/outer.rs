//! Damage to the call around the scene, aimed at questions 10 to 12, 14 and 15;
//! that to the lengths is in `lengths`.

use crate::axes::{Axes, LEVEL};
use crate::call::{Call, View};
use crate::far::{any_bits, double_out, doubles_and_another, ends_of_doubles};
use crate::lengths::{
    counts_length, ends_of_lengths, map_length, picture_length, stepped, table_length, unlit_length,
};
use crate::mount;
use crate::random::Random;
use crate::station::Station::Units;
use crate::tile::Tile;
use crate::tile_harm::{ends_of_tiles, lengths_follow, tile_out, windows_length};
use crate::tiles::part;

pub type CallHarm = fn(&mut Call, &mut Random);

pub const CALL: &[(u32, CallHarm)] = &[
    (15, double_out),
    (15, double_out),
    (15, any_bits),
    (10, eye_out),
    (10, window_out),
    (10, tile_out),
    (10, tile_out),
    (14, part_out),
    (14, vectors_in_a_plane),
    (14, vectors_mirrored),
    (11, picture_length),
    (11, counts_length),
    (11, table_length),
    (11, table_length),
    (11, unlit_length),
    (11, map_length),
    (11, map_length),
    (11, windows_length),
    (12, counter_full),
];

fn eye_out(call: &mut Call, rng: &mut Random) {
    let ends = [
        -10_001, 10_001, -10_001, 10_001, -32_768, 32_767, -10_000, 10_000,
    ];
    let axis = rng.below(3);
    let station = &mut call.view.station;
    *station = station.with_part(axis, rng.pick(&ends));
}

/// One measure at or over its ends; the tile is the whole window, any part of it, or
/// stays, and the lengths follow where they can.
fn window_out(call: &mut Call, rng: &mut Random) {
    let view = &mut call.view;
    match rng.below(3) {
        0 => view.width = rng.pick(&[0, 0, 1, 256, 257, 1_024, 1_025, 1_025, 2_048, 65_535]),
        1 => view.height = rng.pick(&[0, 0, 1, 128, 129, 512, 513, 513, 1_024, 65_535]),
        _ => view.lens = rng.pick(&[0, 0, 1, 4_096, 4_097, 4_097, 65_535]),
    }
    let size = [view.width.max(1), view.height.max(1)];
    call.tile = match rng.below(4) {
        0 => view.whole(),
        1 => call.tile,
        _ => part(rng, size),
    };
    lengths_follow(call, rng);
}

fn part_out(call: &mut Call, rng: &mut Random) {
    let ends = [-101, 101, -101, 101, -32_768, 32_767, -100, 100];
    *call.view.axes.part(rng.below(9)) = rng.pick(&ends);
}

/// One vector is another, or none, or the sum of the others: the volume is 0.
fn vectors_in_a_plane(call: &mut Call, rng: &mut Random) {
    let mut vectors = call.view.axes.vectors();
    let at = rng.below(3);
    let [one, other] = [1, 2].map(|k| vectors[(at + k) % 3]);
    vectors[at] = match rng.below(4) {
        0 => one,
        1 => other,
        2 => [0; 3],
        _ => [0, 1, 2].map(|k: usize| one[k].wrapping_add(other[k])),
    };
    call.view.axes = Axes::of(vectors);
}

/// Two vectors change places, or one is turned about.
fn vectors_mirrored(call: &mut Call, rng: &mut Random) {
    let mut vectors = call.view.axes.vectors();
    let at = rng.below(3);
    match rng.once_in(2) {
        true => vectors.swap(at, (at + 1) % 3),
        false => vectors[at] = vectors[at].map(i16::wrapping_neg),
    }
    call.view.axes = Axes::of(vectors);
}

fn counter_full(call: &mut Call, rng: &mut Random) {
    call.counter = rng.pick(&[u32::MAX, u32::MAX, u32::MAX - 1, 0]);
}

/// Every end of questions 10 to 12, 14 and 15, just inside and just outside, and
/// two questions at once.
pub fn ends(call: &Call) -> Vec<Call> {
    let changed = |change: &dyn Fn(&mut Call)| call.with(change);
    let seen = |view: View| Call::new(call.scene.to_vec(), view);
    let mut all = Vec::new();
    for axis in 0..3 {
        for n in [-10_001, -10_000, 10_000, 10_001] {
            all.push(changed(&|c| {
                c.view.station = c.view.station.with_part(axis, n)
            }));
        }
    }
    let view = call.view;
    all.extend([0, 1, 256, 257, 1_024].map(|width| seen(View { width, ..view })));
    all.extend([0, 1, 128, 129, 512].map(|height| seen(View { height, ..view })));
    all.extend([0, 1, 4_096, 4_097].map(|lens| seen(View { lens, ..view })));
    for counter in [0, u32::MAX - 1, u32::MAX] {
        all.push(changed(&|c| c.counter = counter));
        all.push(changed(&|c| (c.counts_len, c.counter) = (0, counter)));
        all.push(changed(&|c| (c.view.lens, c.counter) = (0, counter)));
    }
    all.push(changed(&|c| (c.view.lens, c.counts_len) = (4_097, 0)));
    all.extend(ends_of_axes().map(|axes| changed(&|c| c.view.axes = axes)));
    all.extend(axes_and_another(call));
    all.extend(ends_of_lengths(call));
    all.extend(ends_of_tiles(call));
    all.extend(ends_of_doubles(call));
    all.extend(doubles_and_another(call));
    all
}

/// Each part at its ends, and volumes of 0, next to 0 and as large as can be.
fn ends_of_axes() -> impl Iterator<Item = Axes> {
    let parts = (0..9).flat_map(|k| [-101, -100, 100, 101].map(|n| mount::with_part(k, n)));
    let thin = [[99, 98, 0], [100, 99, 0], [0, 0, 1]];
    let great = [[-100, 100, 100], [100, -100, 100], [100, 100, -100]];
    let flat = [[100, 99, 98], [1, 1, 1], [99, 98, 97]];
    let volumes = [thin, great, flat].into_iter().flat_map(|vectors| {
        let [right, forward, up] = vectors;
        [[right, forward, up], [forward, right, up]].map(Axes::of)
    });
    parts.chain(volumes)
}

/// A no to 14 and another: only the one asked first may answer.
fn axes_and_another(call: &Call) -> Vec<Call> {
    let others: [&dyn Fn(&mut Call); 9] = [
        &|c| c.scene = c.scene[1..].into(),
        &|c| c.view.station = c.view.station.with_part(2, 10_001),
        &|c| c.view.lens = 0,
        &|c| c.picture_len = stepped(c.picture_len, -1),
        &|c| c.counts_len = 0,
        &|c| c.patch_counts_len = stepped(c.patch_counts_len, 1),
        &|c| c.unlit_len = stepped(c.unlit_len, 1),
        &|c| c.lit_len = stepped(c.lit_len, 1),
        &|c| c.counter = u32::MAX,
    ];
    let flat = Axes {
        up: LEVEL.forward,
        ..LEVEL
    };
    let mut all = Vec::new();
    for axes in [mount::with_part(5, 101), flat] {
        let with = |other: &dyn Fn(&mut Call)| {
            let turned = call.with(&|c| c.view.axes = axes);
            turned.with(other)
        };
        all.extend(others.map(with));
    }
    all
}

/// A window whose measures are all in range, anywhere, and a tile of it.
pub fn any_window(rng: &mut Random) -> (View, Tile) {
    let view = View {
        station: Units([0; 3].map(|_| rng.between(-10_000, 10_000) as i16)),
        axes: mount::any(rng),
        width: rng.between(1, 1_024) as u16,
        height: rng.between(1, 512) as u16,
        lens: rng.between(1, 4_096) as u16,
    };
    (view, part(rng, [view.width, view.height]))
}
