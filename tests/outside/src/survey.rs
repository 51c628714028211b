//! The whole answer to a call: picture, counts, patch table, unlit lists and lit
//! map.

use crate::call::{Call, Lent, Library, View, COUNTS, ROW};
use crate::gate::Gate;
use crate::map::{self, lit_map};
use crate::ray::{holder, panel_of, Holder, Line, Sight};
use crate::scene::{Patch, Scene};
use crate::tile::Tile;

#[derive(Clone, Debug, PartialEq, Eq)]
pub struct Done {
    pub picture: Vec<u16>,
    pub counts: Vec<u32>,
    pub patch_counts: Vec<u32>,
    pub unlit: Vec<u16>,
    pub lit: Vec<u64>,
}

/// "The result is "done" or this number, no third form."
pub fn survey(call: &Call) -> Result<Done, u32> {
    survey_by(Sight::Beside, call)
}

/// The same with the sight lines read in one way or the other.
pub fn survey_by(sight: Sight, call: &Call) -> Result<Done, u32> {
    match Gate::of_the_paper().judge(call) {
        0 => {
            let patches = Scene::read(&call.scene).patches();
            let holders = holders(sight, &patches, &call.view, &call.tile);
            Ok(Done::of(&holders, &patches, &call.tile))
        }
        number => Err(number),
    }
}

/// Does any number of a call's result turn on how its sight lines are read?
pub fn is_read_otherwise(call: &Call) -> bool {
    survey_by(Sight::Plain, call) != survey(call)
}

/// What is due for a call: its result, and the counter after it.
#[derive(Clone, Debug, PartialEq, Eq)]
pub struct Due {
    pub result: Result<Done, u32>,
    pub counter: u32,
}

impl Due {
    pub fn of(call: &Call) -> Due {
        Due::by(Sight::Beside, call)
    }

    pub fn by(sight: Sight, call: &Call) -> Due {
        let result = survey_by(sight, call);
        // "The station counter rises with the tile that holds the window's last
        // cell, and with no other."
        let rises = result.is_ok() && call.holds_last();
        let counter = call.counter + u32::from(rises);
        Due { result, counter }
    }

    pub fn answer(&self) -> u32 {
        self.result.as_ref().err().copied().unwrap_or(0)
    }
}

/// A library that leaves just what is due, whatever scene it is asked about.
impl Library for Due {
    fn survey(&self, _: &Call, lent: &mut Lent) -> u32 {
        if let Ok(done) = &self.result {
            done.leave(lent);
        }
        lent.counter = self.counter;
        self.answer()
    }

    fn gate(&self, _: &Call) -> u32 {
        self.answer()
    }

    fn row_lit(&self, lit: &[u64], row: usize) -> u32 {
        map::row_lit(lit, row)
    }

    fn row_first_unlit(&self, lit: &[u64], width: u16, row: usize) -> u32 {
        map::row_first_unlit(lit, width, row)
    }
}

/// Who has each cell of the tile, row after row from its top, cell (i, j) at
/// j × the tile's width + i.
pub fn holders(sight: Sight, patches: &[Patch], view: &View, tile: &Tile) -> Vec<Holder> {
    let lines = lines(sight, view, tile);
    lines.map(|line| holder(patches, &line)).collect()
}

/// The cells' lines in that order, each that of the whole window at its place.
pub fn lines(sight: Sight, view: &View, tile: &Tile) -> impl Iterator<Item = Line> {
    let view = view.in_units();
    let line = move |[x, y]: [usize; 2]| Line::of(sight, &view, x, y);
    tile.places().map(line)
}

/// One cell in so many of a tile, by its number in that order, and its line.
pub fn some_lines(step: usize, view: &View, tile: &Tile) -> impl Iterator<Item = (usize, Line)> {
    let view = view.in_units();
    let some = tile.places().enumerate().step_by(step);
    some.map(move |(at, [x, y])| (at, Line::of(Sight::Beside, &view, x, y)))
}

/// The panels of the patches that have the cells.
pub fn picture(patches: &[Patch], holders: &[Holder]) -> Vec<u16> {
    let cells = holders.iter();
    cells.map(|&holder| panel_of(patches, holder)).collect()
}

impl Done {
    /// All of it, from who has each cell.
    pub fn of(holders: &[Holder], patches: &[Patch], tile: &Tile) -> Done {
        let table = booked(holders, patches.len());
        Done::told(picture(patches, holders), table, tile)
    }

    /// Counts, unlit lists and lit map as the cells of a tile's picture give them:
    /// "Rows, offsets and map bits count from the tile's top left cell."
    pub fn told(picture: Vec<u16>, patch_counts: Vec<u32>, tile: &Tile) -> Done {
        let rows = picture.chunks(usize::from(tile.width).max(1));
        Done {
            unlit: rows.flat_map(unlit_row).collect(),
            lit: lit_map(&picture, tile.width),
            counts: counts(&picture),
            patch_counts,
            picture,
        }
    }

    /// Fills the lent buffers; the counter is not touched.
    pub fn leave(&self, lent: &mut Lent) {
        lent.picture.copy_from_slice(&self.picture);
        lent.counts.copy_from_slice(&self.counts);
        lent.patch_counts.copy_from_slice(&self.patch_counts);
        lent.unlit.copy_from_slice(&self.unlit);
        lent.lit.copy_from_slice(&self.lit);
    }
}

/// "each count is the number of such cells"; "entry 0 for "nothing"".
pub fn counts(picture: &[u16]) -> Vec<u32> {
    let mut counts = vec![0; COUNTS];
    for &panel in picture {
        counts[usize::from(panel)] += 1;
    }
    counts
}

/// "A further lent table (u32, one entry a patch) receives each patch's
/// cells."
pub fn booked(holders: &[Holder], patches: usize) -> Vec<u32> {
    let mut table = vec![0; patches];
    for &k in holders.iter().flatten() {
        table[k] += 1;
    }
    table
}

/// "A row's unlit cells are pairs of offset and length, sorted by offset,
/// never touching. A row under work holds 128 pairs, unused ones 0 and 0."
pub fn unlit_row(row: &[u16]) -> Vec<u16> {
    let mut numbers = Vec::new();
    let mut i = 0;
    while i < row.len() {
        let length = row[i..].iter().take_while(|&&panel| panel == 0).count();
        if length > 0 {
            numbers.extend([i as u16, length as u16]);
        }
        i += length.max(1);
    }
    numbers.resize(ROW, 0);
    numbers
}

/// "They end before the row's first pair of length 0, or with the row; a row
/// not wholly inside the list gives the empty part."
pub fn used_pairs(unlit: &[u16], j: usize) -> &[u16] {
    match unlit.get(ROW * j..ROW * (j + 1)) {
        None => &[],
        Some(row) => {
            let used = row.chunks(2).take_while(|pair| pair[1] != 0).count();
            &row[..2 * used]
        }
    }
}
