//! The two row calls, against what is due of a map.

use crate::call::{Library, WORDS};
use crate::compare::Difference;
use crate::map::{row_first_unlit, row_lit};

/// A row of a map, and the width by which its first unlit column is asked.
#[derive(Clone, Debug)]
pub struct Asked {
    /// On the heap in exactly its length.
    pub lit: Box<[u64]>,
    pub row: usize,
    pub width: u16,
}

/// The lit cells and the first unlit column.
pub type Answers = [u32; 2];

impl Asked {
    pub fn due(&self) -> Answers {
        let Asked { lit, row, width } = self;
        [row_lit(lit, *row), row_first_unlit(lit, *width, *row)]
    }

    pub fn said(&self, library: &dyn Library) -> Answers {
        let Asked { lit, row, width } = self;
        let lit_cells = library.row_lit(lit, *row);
        [lit_cells, library.row_first_unlit(lit, *width, *row)]
    }
}

pub fn answers_apart(said: Answers, due: Answers) -> Vec<Difference> {
    let calls = [Difference::RowLit, Difference::RowFirstUnlit];
    let differs = (0..2).filter(|&k| said[k] != due[k]);
    differs.map(|k| calls[k]).collect()
}

/// Rows behind a map of so many: the next ones, and such as 4 times the row is a
/// place inside the map in 64 bits, or in 32.
fn beyond(height: usize) -> [usize; 7] {
    let last = height.saturating_sub(1);
    [
        height,
        height + 1,
        1 << 30,
        (1 << 32) + last,
        1 << 62,
        (1 << 62) + last,
        usize::MAX,
    ]
}

/// What differs in both calls on the map that an accepted survey left: on each of
/// its rows and on some beyond, by its tile's width and by others.
pub fn rows_apart(library: &dyn Library, lit: &[u64], own: u16) -> Vec<Difference> {
    let height = lit.len() / WORDS;
    let widths = [own, own - 1, 0, 64, 65, 255, 256, 300, u16::MAX];
    let rows = (0..height).chain(beyond(height));
    let mut found = Vec::new();
    for row in rows {
        if library.row_lit(lit, row) != row_lit(lit, row) {
            found.push(Difference::RowLit);
        }
        let differs = |&width: &u16| {
            library.row_first_unlit(lit, width, row) != row_first_unlit(lit, width, row)
        };
        if widths.iter().any(differs) {
            found.push(Difference::RowFirstUnlit);
        }
    }
    found.sort();
    found.dedup();
    found
}
