//! Gates that are right but for what they ask of the tile, or of lengths that follow
//! it.

use crate::call::{Call, COUNTS, ROW, WORDS};
use crate::fitting::{lengths_fit, table_fits};
use crate::gate::{
    eye_in_range, tile_fits, tile_inside, tile_within, window_within, Gate, Question,
};
use crate::scene::Scene;
use crate::tile::{TALLEST, WIDEST};
use crate::wrong_gate::{asked, place, WrongGate};

pub const TILE_GATES: &[WrongGate] = &[
    ("10: tile unseen", || tiled(|_, _| true)),
    ("10: a tile 257 wide", || {
        tiled(|c, _| tile_within(c, [257, TALLEST]) && tile_inside(c))
    }),
    ("10: a tile 129 tall", || {
        tiled(|c, _| tile_within(c, [WIDEST, 129]) && tile_inside(c))
    }),
    ("10: a tile of any size inside", || {
        tiled(|c, _| tile_within(c, [u16::MAX; 2]) && tile_inside(c))
    }),
    ("10: a tile 255 wide at most", || {
        tiled(|c, _| tile_within(c, [255, TALLEST]) && tile_inside(c))
    }),
    ("10: a tile 127 tall at most", || {
        tiled(|c, _| tile_within(c, [WIDEST, 127]) && tile_inside(c))
    }),
    ("10: a tile of 128 by 256", || {
        tiled(|c, _| tile_within(c, [TALLEST, WIDEST]) && tile_inside(c))
    }),
    ("10: a tile by its cells", || {
        tiled(|c, _| (1..=32_768).contains(&c.tile.cells()) && tile_inside(c))
    }),
    ("10: a tile without a column", || {
        tiled(|c, _| tile_fits(&c.with(&|c| c.tile.width = c.tile.width.max(1))))
    }),
    ("10: a tile without a row", || {
        tiled(|c, _| tile_fits(&c.with(&|c| c.tile.height = c.tile.height.max(1))))
    }),
    ("10: a tile across the window's right end", || {
        inside(|c, _| sums(c)[1] <= u32::from(c.view.height))
    }),
    ("10: a tile across the window's lower end", || {
        inside(|c, _| sums(c)[0] <= u32::from(c.view.width))
    }),
    ("10: < for <= across: the last tile refused", || {
        inside(|c, _| tile_inside(c) && sums(c)[0] < u32::from(c.view.width))
    }),
    ("10: < for <= down: the last tile refused", || {
        inside(|c, _| tile_inside(c) && sums(c)[1] < u32::from(c.view.height))
    }),
    ("10: one column beyond", || {
        inside(|c, _| fits_sums(c, [1, 0]))
    }),
    ("10: one row beyond", || inside(|c, _| fits_sums(c, [0, 1]))),
    ("10: left + width in 16 bits", || {
        inside(|c, _| {
            let sum = c.tile.left.wrapping_add(c.tile.width);
            sum <= c.view.width && sums(c)[1] <= u32::from(c.view.height)
        })
    }),
    ("10: top + height in 16 bits", || {
        inside(|c, _| {
            let sum = c.tile.top.wrapping_add(c.tile.height);
            sum <= c.view.height && sums(c)[0] <= u32::from(c.view.width)
        })
    }),
    ("10: a tile that begins inside", || {
        inside(|c, _| c.tile.left < c.view.width && c.tile.top < c.view.height)
    }),
    ("10: a tile no larger than the window", || {
        inside(|c, _| c.tile.width <= c.view.width && c.tile.height <= c.view.height)
    }),
    ("10: left and top exchanged", || {
        inside(|c, _| tile_inside(&c.with(&|c| std::mem::swap(&mut c.tile.left, &mut c.tile.top))))
    }),
    ("10: the tile held to 1,024 by 512", || {
        inside(|c, _| sums(c)[0] <= 1_024 && sums(c)[1] <= 512)
    }),
    ("10: the window itself at most 256 by 128", || {
        inside(|c, _| tile_inside(c) && window_within(c, [256, 128, 4_096]))
    }),
    ("10: the tile before 15", || apart(Some(15))),
    ("10: the tile after 14", || apart(Some(11))),
    ("10: the tile after 11", || apart(Some(12))),
    ("10: the tile after all", || apart(None)),
    ("10: the tile answered with 11", || {
        let mut gate = tiled(|_, _| true);
        let at = place(&gate, 14);
        gate.questions.insert(at, (11, |c, _| tile_fits(c)));
        gate
    }),
    ("12: only of the tile that raises the counter", || {
        asked(12, |c, _| !c.holds_last() || c.counter < u32::MAX)
    }),
];

pub const TILE_LENGTHS: &[WrongGate] = &[
    ("11: picture of the window", || {
        asked(11, |c, s| lent(c, s, [c.view.cells(), rows(c), rows(c)]))
    }),
    ("11: picture as wide as the window", || {
        asked(11, |c, s| {
            lent(
                c,
                s,
                [usize::from(c.view.width) * rows(c), rows(c), rows(c)],
            )
        })
    }),
    ("11: picture as tall as the window", || {
        asked(11, |c, s| {
            lent(
                c,
                s,
                [usize::from(c.tile.width) * window_rows(c), rows(c), rows(c)],
            )
        })
    }),
    ("11: lists by the window's height", || {
        asked(11, |c, s| {
            lent(c, s, [c.tile.cells(), window_rows(c), rows(c)])
        })
    }),
    ("11: map by the window's height", || {
        asked(11, |c, s| {
            lent(c, s, [c.tile.cells(), rows(c), window_rows(c)])
        })
    }),
    ("11: lists by the tile's width", || {
        asked(11, |c, s| {
            lent(c, s, [c.tile.cells(), usize::from(c.tile.width), rows(c)])
        })
    }),
    ("11: map by the tile's width", || {
        asked(11, |c, s| {
            lent(c, s, [c.tile.cells(), rows(c), usize::from(c.tile.width)])
        })
    }),
    ("11: lists to the tile's last row in the window", || {
        asked(11, |c, s| {
            lent(
                c,
                s,
                [c.tile.cells(), rows(c) + usize::from(c.tile.top), rows(c)],
            )
        })
    }),
    ("11: all by the window", || {
        asked(11, |c, s| {
            lent(c, s, [c.view.cells(), window_rows(c), window_rows(c)])
        })
    }),
    ("11: the window's lengths too", || {
        asked(11, |c, s| {
            let whole = c.with(&|c| c.tile = c.view.whole());
            lengths_fit(c, s) || lengths_fit(&whole, s)
        })
    }),
];

fn rows(call: &Call) -> usize {
    usize::from(call.tile.height)
}

fn window_rows(call: &Call) -> usize {
    usize::from(call.view.height)
}

/// Where the tile ends, across and down.
fn sums(call: &Call) -> [u32; 2] {
    let [left, top, width, height] = call.tile.numbers().map(u32::from);
    [left + width, top + height]
}

/// Ends the tile within the window, or so many cells beyond?
fn fits_sums(call: &Call, [across, down]: [u32; 2]) -> bool {
    let [right, low] = sums(call);
    right <= u32::from(call.view.width) + across && low <= u32::from(call.view.height) + down
}

fn without_the_tile(call: &Call, _: &Scene) -> bool {
    eye_in_range(call) && window_within(call, [1_024, 512, 4_096])
}

/// Question 10 with something else asked of the tile.
fn tiled(question: Question) -> Gate {
    parted(Some(14), question)
}

/// Question 10 with something else asked of where a tile of a right size lies.
fn inside(question: Question) -> Gate {
    let mut gate = tiled(|c, _| tile_within(c, [WIDEST, TALLEST]));
    let at = place(&gate, 14);
    gate.questions.insert(at, (10, question));
    gate
}

/// The tile's part of question 10 in another place.
fn apart(before: Option<u32>) -> Gate {
    parted(before, |c, _| tile_fits(c))
}

/// Question 10 in two parts, the second of them before another question or after all.
fn parted(before: Option<u32>, second: Question) -> Gate {
    let mut gate = asked(10, without_the_tile);
    let at = match before {
        Some(number) => place(&gate, number),
        None => gate.questions.len(),
    };
    gate.questions.insert(at, (10, second));
    gate
}

/// Question 11 with other lengths: the picture's cells, the rows of the lists and those
/// of the map.
fn lent(call: &Call, scene: &Scene, [cells, list_rows, map_rows]: [usize; 3]) -> bool {
    table_fits(call, scene)
        && call.counts_len == COUNTS
        && call.picture_len == cells
        && call.unlit_len == list_rows * ROW
        && call.lit_len == map_rows * WORDS
}
