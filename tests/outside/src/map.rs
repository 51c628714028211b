//! The lit map, worked out from the cells, and the two calls on a row of any map.
//!
//! "Beside the unlit lists stand four u64 words a row, bit i mod 64 of word i / 64
//! set when column i is lit. Columns beyond the width stay clear."

use crate::call::{ROW, WORDS};

/// A word has this many columns.
pub const BITS: usize = 64;

/// The words of a row of cells, of at most 256.
pub fn lit_row(cells: &[u16]) -> [u64; WORDS] {
    let mut words = [0; WORDS];
    let lit = (0..cells.len()).filter(|&i| cells[i] != 0);
    lit.for_each(|i| words[i / BITS] |= 1 << (i % BITS));
    words
}

/// The words of a picture's rows from the top.
pub fn lit_map(picture: &[u16], width: u16) -> Vec<u64> {
    let rows = picture.chunks(usize::from(width).max(1));
    rows.flat_map(lit_row).collect()
}

/// The row's four words; None where it is "not wholly inside the map".
pub fn words_of(lit: &[u64], row: usize) -> Option<&[u64]> {
    lit.chunks_exact(WORDS).nth(row)
}

/// A column past the words reads clear.
pub fn is_lit(words: &[u64], column: usize) -> bool {
    let word = words.get(column / BITS);
    word.is_some_and(|word| word >> (column % BITS) & 1 == 1)
}

/// "Lit cells are counted": the bits that are set, whatever the map holds.
pub fn row_lit(lit: &[u64], row: usize) -> u32 {
    let columns = |words| (0..ROW).filter(|&i| is_lit(words, i)).count();
    words_of(lit, row).map_or(0, columns) as u32
}

/// The first column below the width that is not lit, "the width where all are
/// lit".
pub fn row_first_unlit(lit: &[u64], width: u16, row: usize) -> u32 {
    let all = usize::from(width);
    let first = |words| (0..all).find(|&i| !is_lit(words, i)).unwrap_or(all);
    words_of(lit, row).map_or(0, first) as u32
}
