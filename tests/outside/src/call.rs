//! One call of the survey, what is lent to it, and who answers it.

use crate::axes::Axes;
use crate::random::Random;
use crate::scene::patches_told;
use crate::station::Station;
use crate::tile::Tile;
use crate::vector::Point;

pub const COUNTS: usize = 1_025;
/// "In the lent lists row j has the 256 numbers from 256 × j."
pub const ROW: usize = 256;
/// "Beside the unlit lists stand four u64 words a row".
pub const WORDS: usize = 4;

/// The station, the camera's vectors and "A window is width, height and lens."
#[derive(Clone, Copy, Debug, PartialEq, Eq)]
pub struct View {
    pub station: Station,
    pub axes: Axes,
    pub width: u16,
    pub height: u16,
    pub lens: u16,
}

impl View {
    /// The window as one tile.
    pub fn whole(&self) -> Tile {
        Tile::of([0, 0, self.width, self.height])
    }

    pub fn cells(&self) -> usize {
        self.whole().cells()
    }

    /// The whole-number station.
    pub fn eye(&self) -> Point {
        self.station.eye()
    }

    /// "The picture is that of the whole-number station."
    pub fn in_units(&self) -> View {
        View {
            station: Station::Units(self.eye()),
            ..*self
        }
    }
}

#[derive(Clone, Debug)]
pub struct Call {
    pub scene: Box<[u8]>,
    pub view: View,
    pub tile: Tile,
    pub picture_len: usize,
    pub counts_len: usize,
    pub patch_counts_len: usize,
    pub unlit_len: usize,
    pub lit_len: usize,
    pub counter: u32,
}

impl Call {
    /// A call that draws its window as one tile.
    pub fn new(scene: Vec<u8>, view: View) -> Call {
        Call::of_tile(scene, view, view.whole())
    }

    /// A call with the lengths of question 11: "buffer lengths follow the tile".
    pub fn of_tile(scene: Vec<u8>, view: View, tile: Tile) -> Call {
        Call {
            patch_counts_len: patches_told(&scene),
            scene: scene.into_boxed_slice(),
            view,
            tile,
            picture_len: tile.cells(),
            counts_len: COUNTS,
            unlit_len: usize::from(tile.height) * ROW,
            lit_len: usize::from(tile.height) * WORDS,
            counter: 0,
        }
    }

    /// Does the tile hold "the window's last cell"? Of a window with a cell.
    pub fn holds_last(&self) -> bool {
        let size = [self.view.width, self.view.height];
        self.tile.holds(size.map(|cells| usize::from(cells) - 1))
    }

    /// Another call, changed so.
    pub fn with(&self, change: &dyn Fn(&mut Call)) -> Call {
        let mut other = self.clone();
        change(&mut other);
        other
    }

    /// What `ringbill` reads: eye, width, height, lens, then the scene. Its
    /// view is level, whatever this one is, and its eye in units.
    pub fn standard_input(&self) -> Vec<u8> {
        let view = &self.view;
        let mut bytes = Vec::new();
        for number in view.eye() {
            bytes.extend(number.to_le_bytes());
        }
        for number in [view.width, view.height, view.lens] {
            bytes.extend(number.to_le_bytes());
        }
        bytes.extend_from_slice(&self.scene);
        bytes
    }
}

/// The lent buffers, each on the heap in exactly its lent length.
#[derive(Clone, Debug, PartialEq, Eq)]
pub struct Lent {
    pub picture: Box<[u16]>,
    pub counts: Box<[u32]>,
    pub patch_counts: Box<[u32]>,
    pub unlit: Box<[u16]>,
    pub lit: Box<[u64]>,
    pub counter: u32,
}

impl Lent {
    /// Buffers for a call, full of noise: any numbers, or small ones that
    /// could pass for panels and stretches.
    pub fn noise(call: &Call, rng: &mut Random) -> Lent {
        let mask = rng.pick(&[u64::MAX, u64::MAX, 1_023, 7]);
        Lent {
            picture: (0..call.picture_len)
                .map(|_| (rng.next() & mask) as u16)
                .collect(),
            counts: (0..call.counts_len)
                .map(|_| (rng.next() & mask) as u32)
                .collect(),
            patch_counts: (0..call.patch_counts_len)
                .map(|_| (rng.next() & mask) as u32)
                .collect(),
            unlit: (0..call.unlit_len)
                .map(|_| (rng.next() & mask) as u16)
                .collect(),
            lit: (0..call.lit_len).map(|_| rng.next() & mask).collect(),
            counter: call.counter,
        }
    }
}

/// The survey, the gate and the calls on a map's row, as the console calls them.
pub trait Library {
    fn survey(&self, call: &Call, lent: &mut Lent) -> u32;
    fn gate(&self, call: &Call) -> u32;
    /// How many cells of the row are lit.
    fn row_lit(&self, lit: &[u64], row: usize) -> u32;
    fn row_first_unlit(&self, lit: &[u64], width: u16, row: usize) -> u32;
}
