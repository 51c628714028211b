//! Whole windows cut into tiles: two scenes for demand 3, and for each a cutting of the
//! window of its own.

use crate::call::{Call, View};
use crate::forms::in_some_form;
use crate::generate::{Kind, Size};
use crate::pairs::{make_pair, Pair};
use crate::random::Random;
use crate::scene::patches_told;
use crate::tile::{Tile, TALLEST, WIDEST};
use crate::tiles::MOST;

#[derive(Clone, Debug)]
pub struct Windows {
    /// Calls on the window as one tile, which may be too large for one: nobody puts
    /// them.
    pub pair: Pair,
    /// The calls on the tiles of either, in the order of asking.
    pub calls: [Vec<Call>; 2],
    /// As many rays times patches as the model may cost for each.
    pub work: usize,
}

/// A window may cost so many times a case's work where all of it is painted; the model
/// then paints a part of it.
const DEAR: usize = 6;

/// A pair of the generator in its whole window, or in its tile alone where that would
/// be too dear.
pub fn make_windows(rng: &mut Random, kind: Kind, size: Size) -> Windows {
    let mut pair = make_pair(rng, kind, size);
    let view = window(rng, &pair.first, DEAR * size.work);
    let any = rng.next() as u32 / 2;
    // Behind the last cell's tile others may follow, and question 12 is asked of each.
    let counter = rng.pick(&[0, u32::MAX - 2, any]);
    for call in [&mut pair.first, &mut pair.second] {
        *call = Call::new(call.scene.to_vec(), view);
        call.counter = counter;
    }
    let calls = [&pair.first, &pair.second].map(|whole| tiled(rng, whole));
    Windows {
        pair,
        calls,
        work: size.work / 2,
    }
}

/// The call's window, or one as wide or as high as can be around it; its tile alone
/// where that would be too dear.
fn window(rng: &mut Random, call: &Call, work: usize) -> View {
    let most = work / patches_told(&call.scene).max(1);
    let mut view = call.view;
    let own = [view.width, view.height];
    // Cells are added on both sides: their number stays even or odd.
    let [widest, highest] = [0, 1].map(|k| MOST[k] - (MOST[k] - own[k]) % 2);
    let large = [[widest, own[1]], [own[0], highest], [widest, highest]];
    [view.width, view.height] = match rng.once_in(2) {
        true => rng.pick(&large),
        false => own,
    };
    if view.cells() > most {
        (view.width, view.height) = (call.tile.width, call.tile.height);
    }
    view
}

/// The calls on tiles that cover a window once, in any order, their stations in any
/// form.
fn tiled(rng: &mut Random, whole: &Call) -> Vec<Call> {
    let mut tiles = Vec::new();
    cut(rng, whole.tile, &mut tiles);
    rng.shuffle(&mut tiles);
    let mut counter = whole.counter;
    let mut call = |tile| {
        let mut call = Call::of_tile(whole.scene.to_vec(), whole.view, tile);
        call.counter = counter;
        counter += u32::from(call.holds_last());
        in_some_form(rng, &mut call);
        call
    };
    tiles.into_iter().map(&mut call).collect()
}

/// Cuts from edge to edge, until no part is too large, and now and then on.
fn cut(rng: &mut Random, tile: Tile, tiles: &mut Vec<Tile>) {
    let sizes = [(tile.width, WIDEST), (tile.height, TALLEST)];
    let mut axes: Vec<usize> = (0..2).filter(|&k| sizes[k].0 > sizes[k].1).collect();
    if axes.is_empty() && rng.once_in(4) {
        axes = (0..2).filter(|&k| sizes[k].0 > 1).collect();
    }
    if axes.is_empty() {
        return tiles.push(tile);
    }
    let axis = rng.pick(&axes);
    let (cells, most) = sizes[axis];
    let any = rng.between(1, i64::from(cells) - 1) as u16;
    let at = rng.pick(&[
        1,
        cells - 1,
        most.min(cells - 1),
        most.min(cells - 1),
        cells / 2,
        any,
    ]);
    let (mut before, mut behind) = (tile, tile);
    match axis {
        0 => (before.width, behind.left, behind.width) = (at, tile.left + at, cells - at),
        _ => (before.height, behind.top, behind.height) = (at, tile.top + at, cells - at),
    }
    cut(rng, before, tiles);
    cut(rng, behind, tiles);
}
