//! Tiles at the ends of question 10, just inside and just outside, and lengths that
//! follow the window where they should follow the tile.

use crate::axes::LEVEL;
use crate::call::{Call, ROW, WORDS};
use crate::double::Double;
use crate::random::Random;
use crate::station::Station::Metres;
use crate::tile::{Tile, TALLEST, WIDEST};
use crate::tiles::MOST;

/// The lengths follow the tile where they can, and mostly.
pub fn lengths_follow(call: &mut Call, rng: &mut Random) {
    let fitting = Call::of_tile(Vec::new(), call.view, call.tile);
    if fitting.picture_len < 100_000 && fitting.unlit_len < 100_000 && !rng.once_in(4) {
        call.picture_len = fitting.picture_len;
        call.unlit_len = fitting.unlit_len;
        call.lit_len = fitting.lit_len;
    }
}

/// The tile's numbers along one axis: where it begins, and its cells.
fn along(tile: &mut Tile, axis: usize) -> [&mut u16; 2] {
    match axis {
        0 => [&mut tile.left, &mut tile.width],
        _ => [&mut tile.top, &mut tile.height],
    }
}

/// Along one axis the tile is empty or too large, begins where the window ends, ends
/// with the window or one cell beyond, or ends so far beyond that a sum in 16 bits
/// falls inside again. Another fault may have moved it before: what is worked out
/// here stops at the ends of 16 bits.
pub fn tile_out(call: &mut Call, rng: &mut Random) {
    let axis = rng.below(2);
    let most = [WIDEST, TALLEST][axis];
    let [first, cells] = along(&mut call.tile, axis);
    let all = match axis {
        0 => &mut call.view.width,
        _ => &mut call.view.height,
    };
    match rng.below(8) {
        0 => *cells = 0,
        1 => {
            // Only the tile's limit is passed.
            *cells = rng.pick(&[most + 1, most + 1, 2 * most]);
            *all = (*all).max(first.saturating_add(*cells));
        }
        2 => *first = *all,
        3 | 4 => *first = all.saturating_add(1).saturating_sub(*cells),
        5 => *first = all.saturating_sub(*cells),
        6 => *first = u16::MAX - rng.below(usize::from(*cells) + 1) as u16,
        _ => *first = rng.pick(&[u16::MAX, 32_768, 1 << 12]),
    }
    lengths_follow(call, rng);
}

/// A length that is the window's.
pub fn windows_length(call: &mut Call, rng: &mut Random) {
    let [width, height] = [call.view.width.min(MOST[0]), call.view.height.min(MOST[1])];
    let [width, height] = [width, height].map(usize::from);
    match rng.below(4) {
        0 => call.picture_len = width * height,
        1 => call.picture_len = width * usize::from(call.tile.height.min(TALLEST)),
        2 => call.unlit_len = height * ROW,
        _ => call.lit_len = height * WORDS,
    }
}

/// Tiles of 1,024 by 512 cells that pass, those that hold the last cell first; the
/// last two are one cell away from it.
pub const INSIDE: [[u16; 4]; 6] = [
    [1_023, 511, 1, 1],
    [768, 511, 256, 1],
    [1_023, 384, 1, 128],
    [0, 0, 1, 1],
    [1_022, 511, 1, 1],
    [1_023, 510, 1, 1],
];

/// Tiles of it that question 10 refuses; sums of the last five fall inside again in
/// 16 bits.
pub const OUTSIDE: [[u16; 4]; 17] = [
    [0, 0, 0, 1],
    [0, 0, 1, 0],
    [1_024, 512, 0, 0],
    [0, 0, 257, 1],
    [0, 0, 1, 129],
    [1_024, 0, 1, 1],
    [0, 512, 1, 1],
    [1_023, 0, 2, 1],
    [0, 511, 1, 2],
    [769, 0, 256, 1],
    [0, 385, 1, 128],
    [600, 0, 1, 600],
    [65_535, 0, 1, 1],
    [65_535, 0, 2, 1],
    [0, 65_535, 1, 1],
    [65_280, 0, 256, 1],
    [0, 65_408, 1, 128],
];

/// The ends of the tile's numbers in the largest window, that window's own ends, and
/// two questions at once.
pub fn ends_of_tiles(call: &Call) -> Vec<Call> {
    let in_window = |[width, height]: [u16; 2], tile: [u16; 4]| {
        let mut view = call.view;
        (view.width, view.height) = (width, height);
        Call::of_tile(call.scene.to_vec(), view, Tile::of(tile))
    };
    let tiles = INSIDE.into_iter().chain(OUTSIDE);
    let mut all: Vec<Call> = tiles.map(|tile| in_window(MOST, tile)).collect();
    for size in [[1_025, 512], [1_024, 513], [1_025, 1], [1, 513]] {
        all.push(in_window(size, [0, 0, 1, 1]));
    }
    let [inside, outside] = [INSIDE[3], OUTSIDE[12]].map(|tile| in_window(MOST, tile));
    all.extend(lengths_by_the_window(&in_window([20, 9], [3, 2, 5, 4])));
    all.push(inside.with(&|c| c.counter = u32::MAX));
    all.push(inside.with(&|c| c.counter = u32::MAX - 1));
    all.extend(tile_and_another(&outside));
    all
}

/// Each length as if the tile were the window.
fn lengths_by_the_window(call: &Call) -> Vec<Call> {
    let others: [&dyn Fn(&mut Call); 6] = [
        &|c| c.picture_len = c.view.cells(),
        &|c| c.picture_len = usize::from(c.view.width) * usize::from(c.tile.height),
        &|c| c.picture_len = usize::from(c.tile.width) * usize::from(c.view.height),
        &|c| c.unlit_len = usize::from(c.view.height) * ROW,
        &|c| c.lit_len = usize::from(c.view.height) * WORDS,
        &|c| {
            *c = Call::of_tile(c.scene.to_vec(), c.view, c.view.whole()).with(&|d| d.tile = c.tile)
        },
    ];
    others.map(|other| call.with(other)).into()
}

/// A no to 10 by the tile and another: only the one asked first may answer.
fn tile_and_another(call: &Call) -> Vec<Call> {
    let others: [&dyn Fn(&mut Call); 8] = [
        &|c| c.scene = c.scene[1..].into(),
        &|c| c.view.station = Metres([Double::of(f64::NAN); 3]),
        &|c| c.view.axes.up = LEVEL.forward,
        &|c| c.picture_len += 1,
        &|c| c.patch_counts_len += 1,
        &|c| c.lit_len += 1,
        &|c| c.counts_len = 0,
        &|c| c.counter = u32::MAX,
    ];
    others.map(|other| call.with(other)).into()
}
