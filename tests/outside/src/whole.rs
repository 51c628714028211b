//! A whole window from its tiles: "All tiles that cover the window once, each of them
//! accepted, give the whole picture, and their counts add to its counts."

use crate::call::{Call, Lent, COUNTS};
use crate::compare::Difference;
use crate::survey::Done;
use crate::tile::Tile;

/// What an accepted call on a tile left, or is due to leave.
#[derive(Clone, Copy)]
pub struct Piece<'a> {
    pub tile: Tile,
    pub picture: &'a [u16],
    pub counts: &'a [u32],
    pub patch_counts: &'a [u32],
    /// The counter before the call, and after it.
    pub counters: [u32; 2],
}

impl Piece<'_> {
    pub fn left<'a>(call: &Call, lent: &'a Lent) -> Piece<'a> {
        Piece {
            tile: call.tile,
            picture: &lent.picture,
            counts: &lent.counts,
            patch_counts: &lent.patch_counts,
            counters: [call.counter, lent.counter],
        }
    }

    pub fn due<'a>(call: &Call, done: &'a Done, counter: u32) -> Piece<'a> {
        Piece {
            tile: call.tile,
            picture: &done.picture,
            counts: &done.counts,
            patch_counts: &done.patch_counts,
            counters: [call.counter, counter],
        }
    }
}

/// Does each cell of the window lie in exactly one tile, and no tile beyond it?
pub fn covers_once(size: [u16; 2], tiles: impl Iterator<Item = Tile>) -> bool {
    let [width, height] = size.map(usize::from);
    let mut times = vec![0u32; width * height];
    for tile in tiles {
        if !tile.is_inside(size) {
            return false;
        }
        tile.places().for_each(|[x, y]| times[y * width + x] += 1);
    }
    times.iter().all(|&times| times == 1)
}

/// Has each call the counter that the one before it left?
pub fn counter_passes(pieces: &[Piece]) -> bool {
    let mut steps = pieces.windows(2);
    steps.all(|two| two[0].counters[1] == two[1].counters[0])
}

/// The window's picture; its panels' counts and its patches' cells added over the
/// tiles; and the counter after the last of these.
#[derive(Clone, Debug, PartialEq, Eq)]
pub struct Whole {
    pub picture: Vec<u16>,
    pub counts: Vec<u32>,
    pub patch_counts: Vec<u32>,
    pub counter: u32,
}

impl Whole {
    /// Put together from pieces inside the window.
    pub fn of(size: [u16; 2], pieces: &[Piece]) -> Whole {
        let [width, height] = size.map(usize::from);
        let patches = pieces.first().map_or(0, |piece| piece.patch_counts.len());
        let mut whole = Whole {
            picture: vec![0; width * height],
            counts: vec![0; COUNTS],
            patch_counts: vec![0; patches],
            counter: 0,
        };
        for piece in pieces {
            for ([x, y], &panel) in piece.tile.places().zip(piece.picture) {
                whole.picture[y * width + x] = panel;
            }
            added(&mut whole.counts, piece.counts);
            added(&mut whole.patch_counts, piece.patch_counts);
            whole.counter = piece.counters[1];
        }
        whole
    }

    /// What differs from what is due.
    pub fn apart(&self, due: &Whole) -> Vec<Difference> {
        let found = [
            (self.picture != due.picture, Difference::WholePicture),
            (self.counts != due.counts, Difference::WholeCounts),
            (
                self.patch_counts != due.patch_counts,
                Difference::WholePatchCounts,
            ),
            (self.counter != due.counter, Difference::WholeCounter),
        ];
        let found = found.into_iter().filter(|(differs, _)| *differs);
        found.map(|(_, which)| which).collect()
    }
}

/// Sums of what a wrong library left need not fit.
fn added(sums: &mut [u32], more: &[u32]) {
    for (sum, more) in sums.iter_mut().zip(more) {
        *sum = sum.wrapping_add(*more);
    }
}
