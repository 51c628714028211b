//! Tiles of windows: many of them the whole window, others a part of one, or a
//! small one in a large window.

use crate::call::View;
use crate::random::Random;
use crate::tile::{Tile, TALLEST, WIDEST};

/// The most of a window.
pub const MOST: [u16; 2] = [1_024, 512];

/// A view that is drawn as one tile, or another and a tile of it.
///
/// The tile shows what the view showed, in the midst of a larger window or aside of
/// that, or a part of it.
pub fn placed(rng: &mut Random, view: View) -> (View, Tile) {
    match rng.below(4) {
        0 => (view, part(rng, [view.width, view.height])),
        1 => around(rng, view),
        _ => (view, view.whole()),
    }
}

/// A tile anywhere in a window, as large as can be or smaller, often at the window's
/// edges or of one cell.
pub fn part(rng: &mut Random, [width, height]: [u16; 2]) -> Tile {
    let (left, wide) = stretch(rng, width, WIDEST);
    let (top, tall) = stretch(rng, height, TALLEST);
    Tile::of([left, top, wide, tall])
}

/// Where a part of so many cells begins, and how many it has.
fn stretch(rng: &mut Random, cells: u16, most: u16) -> (u16, u16) {
    let (all, most) = (i64::from(cells), i64::from(cells.min(most)));
    let long = match rng.below(5) {
        0 => 1,
        1 => most,
        _ => rng.between(1, most),
    };
    let room = all - long;
    let any = rng.between(0, room);
    (rng.pick(&[0, room, any]) as u16, long as u16)
}

/// A larger window, and the tile as large as the old one: its lines are those of the
/// old one where it lies in the middle, and a few cells aside where not.
fn around(rng: &mut Random, view: View) -> (View, Tile) {
    let [(width, left), (height, top)] = [0, 1].map(|k| {
        let (cells, most) = ([view.width, view.height][k], MOST[k]);
        widened(rng, i64::from(cells), i64::from(most))
    });
    let tile = Tile::of([left, top, view.width, view.height]);
    let view = View {
        width,
        height,
        ..view
    };
    (view, tile)
}

/// The larger measure, and where the old one begins in it.
fn widened(rng: &mut Random, cells: i64, most: i64) -> (u16, u16) {
    let room = (most - cells) / 2;
    let (few, any) = (rng.between(0, room.min(12)), rng.between(0, room));
    let before = rng.pick(&[0, few, few, any, room]);
    let places = [before, before, before, before + 1, 2 * before, 0];
    let first = rng.pick(&places).min(2 * before);
    ((cells + 2 * before) as u16, first as u16)
}
