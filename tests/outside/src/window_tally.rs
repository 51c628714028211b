//! What tiles and whole windows a run put.

use crate::call::Call;
use crate::tile::{TALLEST, WIDEST};
use crate::tiles::MOST;
use crate::window_compare::WindowOutcome;

/// A test of an accepted call, and its name.
type Sort = (&'static str, fn(&Call) -> bool);

const SORTS: &[Sort] = &[
    ("the whole window", |c| c.tile == c.view.whole()),
    ("of one cell, in a larger window", |c| {
        c.tile.cells() == 1 && c.view.cells() > 1
    }),
    ("256 wide, in a wider window", |c| {
        c.tile.width == WIDEST && c.view.width > WIDEST
    }),
    ("128 tall, in a taller window", |c| {
        c.tile.height == TALLEST && c.view.height > TALLEST
    }),
    ("with the window's last cell and not its first", |c| {
        c.holds_last() && !c.tile.holds([0, 0])
    }),
    ("with the window's first cell and not its last", |c| {
        !c.holds_last() && c.tile.holds([0, 0])
    }),
    ("at the window's right end, not at its lower", |c| {
        is_at_end(c) == [true, false]
    }),
    ("at the window's lower end, not at its right", |c| {
        is_at_end(c) == [false, true]
    }),
    ("off all four ends of the window", |c| {
        c.tile.left > 0 && c.tile.top > 0 && is_at_end(c) == [false; 2]
    }),
    ("beyond column 255", |c| c.tile.left > 255),
    ("beyond row 255", |c| c.tile.top > 255),
];

/// Does the tile end with the window, across and down?
fn is_at_end(call: &Call) -> [bool; 2] {
    let tile = call.tile;
    [
        tile.left + tile.width == call.view.width,
        tile.top + tile.height == call.view.height,
    ]
}

/// Accepted calls by their tiles.
#[derive(Default)]
pub struct TilesShown {
    sorts: [u64; SORTS.len()],
    /// Pairs for demand 3 whose tile is not the window.
    pairs: u64,
}

impl TilesShown {
    pub fn add(&mut self, call: &Call) {
        for (times, (_, is_so)) in self.sorts.iter_mut().zip(SORTS) {
            *times += u64::from(is_so(call));
        }
    }

    pub fn add_pair(&mut self, call: &Call) {
        self.pairs += u64::from(is_part(call));
    }

    /// Each number with its name.
    pub fn told(&self) -> Vec<(u64, String)> {
        let sorts = self.sorts.iter().zip(SORTS);
        let sorts = sorts.map(|(times, (name, _))| (*times, format!("tiles are {name}")));
        let pairs = (self.pairs, format!("pairs {PART}"));
        sorts.chain([pairs]).collect()
    }
}

/// Is the tile not the whole window?
pub fn is_part(call: &Call) -> bool {
    call.tile != call.view.whole()
}

/// What two calls on one tile can have.
pub const PART: &str = "are of a tile of a larger window";

/// A test of a window's calls and of what came of them, and its name.
type WindowSort = (&'static str, fn(&[Call], &WindowOutcome) -> bool);

const WINDOW_SORTS: &[WindowSort] = &[
    ("put together", |_, _| true),
    ("of one tile", |calls, _| calls.len() == 1),
    ("of several tiles", |calls, _| calls.len() > 1),
    ("of more than 16 tiles", |calls, _| calls.len() > 16),
    ("too large for one tile", |calls, _| {
        let view = calls[0].view;
        view.width > WIDEST || view.height > TALLEST
    }),
    ("1,024 wide", |calls, _| calls[0].view.width == MOST[0]),
    ("512 high", |calls, _| calls[0].view.height == MOST[1]),
    ("with the last cell in a tile before others", |calls, _| {
        let others = &calls[..calls.len() - 1];
        others.iter().any(Call::holds_last)
    }),
    ("lit in several tiles", |_, o| {
        let is_lit = |cells: &[u16]| cells.iter().any(|&panel| panel > 0);
        let lit = o.tiles.iter().filter(|tile| is_lit(&tile.lent.picture));
        lit.count() > 1
    }),
    ("with a panel in several tiles", |_, o| {
        let shown = |panel: usize| o.tiles.iter().filter(move |t| t.lent.counts[panel] > 0);
        (1..=1_024).any(|panel| shown(panel).count() > 1)
    }),
];

#[derive(Default)]
pub struct WindowTally {
    sorts: [u64; WINDOW_SORTS.len()],
    pub tiles: u64,
    pub cells: u64,
}

impl WindowTally {
    pub fn add(&mut self, calls: &[Call], outcome: &WindowOutcome) {
        for (times, (_, is_so)) in self.sorts.iter_mut().zip(WINDOW_SORTS) {
            *times += u64::from(is_so(calls, outcome));
        }
        self.tiles += calls.len() as u64;
        self.cells += calls[0].view.cells() as u64;
    }

    /// Each number with its name.
    pub fn told(&self) -> Vec<(u64, String)> {
        let sorts = self.sorts.iter().zip(WINDOW_SORTS);
        sorts
            .map(|(times, (name, _))| (*times, format!("windows {name}")))
            .collect()
    }
}
