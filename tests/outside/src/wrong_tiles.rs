//! Libraries that take tiles wrongly in one way: sight lines, counters, what is
//! written. Gates that do so are in `wrong_tile_gates`.

use crate::call::{Call, View, ROW, WORDS};
use crate::compare::Difference;
use crate::map::BITS;
use crate::ray::{Holder, Sight};
use crate::scene::Scene;
use crate::survey::{booked, holders, Done};
use crate::tile::{TALLEST, WIDEST};
use crate::wrong_booking::{Book, Painted};
use crate::wrong_cuttings::Write;
use crate::wrong_paint::{Cell, Look};

pub const TILE_LOOKS: &[(&str, Look)] = &[
    ("tile: as if it were its own window", |s, c| {
        let [left, top] = place(c);
        at(
            s,
            sized(c, [c.tile.width, c.tile.height]),
            c.i - left,
            c.j - top,
        )
    }),
    ("tile: columns from the window's left", |s, c| {
        at(s, c, c.i - place(c)[0], c.j)
    }),
    ("tile: rows from the window's top", |s, c| {
        at(s, c, c.i, c.j - place(c)[1])
    }),
    ("tile: left and top exchanged", |s, c| {
        let [left, top] = place(c);
        at(s, c, c.i - left + top, c.j - top + left)
    }),
    ("tile: left counted once for two", |s, c| {
        at(s, c, c.i - place(c)[0] / 2, c.j)
    }),
    ("tile: top counted once for two", |s, c| {
        at(s, c, c.i, c.j - place(c)[1] / 2)
    }),
    ("tile: left counted in tiles", |s, c| {
        let left = place(c)[0];
        at(s, c, c.i - left + left * usize::from(c.tile.width), c.j)
    }),
    ("tile: its own width for the window's", |s, c| {
        at(s, sized(c, [c.tile.width, c.view.height]), c.i, c.j)
    }),
    ("tile: its own height for the window's", |s, c| {
        at(s, sized(c, [c.view.width, c.tile.height]), c.i, c.j)
    }),
    ("tile: a window of 256 by 128 at most", |s, c| {
        let size = [c.view.width.min(WIDEST), c.view.height.min(TALLEST)];
        at(s, sized(c, size), c.i, c.j)
    }),
    ("tile: its rows from the bottom of the window", |s, c| {
        let [top, tall, all] = [c.tile.top, c.tile.height, c.view.height].map(usize::from);
        at(s, c, c.i, c.j - top + all - tall - top)
    }),
    ("tile: its columns from the right of the window", |s, c| {
        let [left, wide, all] = [c.tile.left, c.tile.width, c.view.width].map(usize::from);
        at(s, c, c.i - left + all - wide - left, c.j)
    }),
    ("tile: left in eight bits", |s, c| {
        let left = place(c)[0];
        at(s, c, c.i - left + left % 256, c.j)
    }),
    ("tile: top in eight bits", |s, c| {
        let top = place(c)[1];
        at(s, c, c.i, c.j - top + top % 256)
    }),
    ("tile: every tile the first", |s, c| {
        let [left, top] = place(c);
        at(s, c, c.i - left, c.j - top)
    }),
];

fn place(cell: Cell) -> [usize; 2] {
    [cell.tile.left, cell.tile.top].map(usize::from)
}

/// The cell in a window of another size.
fn sized(cell: Cell, [width, height]: [u16; 2]) -> Cell {
    let view = View {
        width,
        height,
        ..cell.view
    };
    Cell { view, ..cell }
}

/// What another column and row show.
fn at(scene: &Scene, cell: Cell, i: usize, j: usize) -> Holder {
    Cell { i, j, ..cell }.holder(&scene.patches())
}

/// A table that is not the tile's.
pub const TILE_BOOKS: &[(&str, Book)] = &[("tile: patches booked over the whole window", |p| {
    let all = holders(Sight::Beside, p.patches, &p.view, &p.view.whole());
    booked(&all, p.patches.len())
})];

/// With which tiles the counter rises.
pub type Rises = fn(&Call) -> bool;

pub const TILE_COUNTERS: &[(&str, Rises)] = &[
    ("counter: rises with each tile", |_| true),
    ("counter: rises with none", |_| false),
    ("counter: rises with the first tile", |c| {
        c.tile.left == 0 && c.tile.top == 0
    }),
    ("counter: rises with the last row", |c| ends(c)[1]),
    ("counter: rises with the last column", |c| ends(c)[0]),
    ("counter: rises with the last row or column", |c| {
        ends(c) != [false; 2]
    }),
    ("counter: rises with the last row's first tile", |c| {
        c.tile.left == 0 && ends(c)[1]
    }),
    ("counter: rises with the last column's first tile", |c| {
        c.tile.top == 0 && ends(c)[0]
    }),
    ("counter: rises with a tile that is the window", |c| {
        c.tile == c.view.whole()
    }),
    (
        "counter: rises with a tile as large as the window's rest",
        |c| {
            let [left, top, width, height] = c.tile.numbers();
            left + width == c.view.height && top + height == c.view.width
        },
    ),
    (
        "counter: rises with a tile that holds the last but one",
        |c| {
            let [x, y] = [c.view.width, c.view.height].map(usize::from);
            c.tile.holds([x.saturating_sub(2), y - 1])
        },
    ),
    ("counter: rises by the sums in eight bits", |c| {
        let [left, top, width, height] = c.tile.numbers();
        let same = |sum: u16, all: u16| sum as u8 == all as u8;
        same(left + width, c.view.width) && same(top + height, c.view.height)
    }),
];

/// Does the tile end with the window, across and down?
fn ends(call: &Call) -> [bool; 2] {
    let [left, top, width, height] = call.tile.numbers();
    [
        left + width == call.view.width,
        top + height == call.view.height,
    ]
}

pub const TILE_WRITES: &[(&str, Difference, Write)] = &[
    (
        "tile: map columns counted from the window",
        Difference::Lit,
        |p, done| mapped(p, done, |_, i| Some(i)),
    ),
    (
        "tile: map columns from the window, beyond a row again at its start",
        Difference::Lit,
        |p, done| mapped(p, done, |_, i| Some(i % ROW)),
    ),
    (
        "tile: map columns from the window's word",
        Difference::Lit,
        |p, done| mapped(p, done, |left, i| Some(i - left / BITS * BITS)),
    ),
    (
        "tile: offsets counted from the window",
        Difference::Unlit,
        |p, mut done| {
            let pairs = done.unlit.chunks_mut(2).filter(|pair| pair[1] > 0);
            pairs.for_each(|pair| pair[0] += p.tile.left);
            done
        },
    ),
    (
        "tile: lists by the window's rows",
        Difference::Unlit,
        |p, mut done| {
            turned_down(&mut done.unlit, ROW * usize::from(p.tile.top));
            done
        },
    ),
    (
        "tile: map by the window's rows",
        Difference::Lit,
        |p, mut done| {
            turned_down(&mut done.lit, WORDS * usize::from(p.tile.top));
            done
        },
    ),
    (
        "tile: picture by the window's rows",
        Difference::Picture,
        |p, mut done| {
            turned_down(
                &mut done.picture,
                usize::from(p.tile.width) * usize::from(p.tile.top),
            );
            done
        },
    ),
    (
        "tile: nothing counted by the window's cells",
        Difference::Counts,
        |p, mut done| {
            done.counts[0] += (p.view.cells() - p.tile.cells()) as u32;
            done
        },
    ),
    (
        "tile: a stretch at the window's end only",
        Difference::Unlit,
        |p, mut done| {
            let [left, width] = [p.tile.left, p.tile.width];
            let is_last = |pair: &[u16]| pair[1] > 0 && pair[0] + pair[1] == width;
            if left + width < p.view.width {
                let pairs = done.unlit.chunks_mut(2);
                let last = pairs.filter(|pair| is_last(pair));
                last.for_each(|pair| pair[1] = p.view.width - left - pair[0]);
            }
            done
        },
    ),
];

/// The map with each lit column somewhere else, told by the tile's left and the
/// column in the window; beyond the row it is not lit.
fn mapped(p: &Painted, done: Done, column: fn(usize, usize) -> Option<usize>) -> Done {
    let left = usize::from(p.tile.left);
    let mut lit = vec![0; done.lit.len()];
    let places = p.tile.places().zip(&done.picture);
    for ([x, y], _) in places.filter(|(_, &panel)| panel > 0) {
        let row = (y - usize::from(p.tile.top)) * WORDS;
        let column = column(left, x).filter(|&i| i < ROW);
        if let Some(i) = column {
            lit[row + i / BITS] |= 1 << (i % BITS);
        }
    }
    Done { lit, ..done }
}

/// All so many places further, the last ones again at the start.
fn turned_down<T>(all: &mut [T], by: usize) {
    if !all.is_empty() {
        let by = by % all.len();
        all.rotate_right(by);
    }
}
