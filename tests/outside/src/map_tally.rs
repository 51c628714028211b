//! What maps a run put: bare ones through the row calls, and those that accepted
//! calls left.

use std::collections::BTreeMap;

use crate::call::{Library, ROW, WORDS};
use crate::compare::Difference;
use crate::map::{row_first_unlit, row_lit, words_of, BITS};
use crate::map_compare::{answers_apart, Asked};

/// A name, and a test of a row of a map with a width.
type Kind = (&'static str, fn(&Asked) -> bool);

/// Kinds of bare maps, rows and widths that a run claims to try.
const KINDS: &[Kind] = &[
    ("of no word", |a| a.lit.is_empty()),
    ("of one to three words", |a| {
        (1..WORDS).contains(&a.lit.len())
    }),
    ("of a length that is no multiple of 4", |a| {
        a.lit.len() % WORDS != 0 && a.lit.len() > WORDS
    }),
    ("a row inside, with words over", |a| {
        a.is_inside() && a.lit.len() % WORDS != 0
    }),
    ("the last row inside", |a| {
        a.is_inside() && a.row + 1 == a.rows()
    }),
    ("a row with lit ones before and behind it", |a| {
        let lit = |row| row_lit(&a.lit, row) > 0;
        a.is_inside() && a.row > 0 && lit(a.row - 1) && lit(a.row + 1)
    }),
    ("a row at the end of whole rows", |a| {
        a.row == a.rows() && a.lit.len() % WORDS == 0 && a.row > 0
    }),
    ("a row begun inside and not ended there", |a| {
        a.row == a.rows() && a.lit.len() % WORDS != 0
    }),
    ("a row just beyond that", |a| a.row == a.rows() + 1),
    ("row 18,446,744,073,709,551,615", |a| a.row == usize::MAX),
    ("a row inside in 62 bits", |a| {
        !a.is_inside() && words_of(&a.lit, a.row % (1 << 62)).is_some()
    }),
    ("a row inside in 32 bits", |a| {
        !a.is_inside() && words_of(&a.lit, a.row as u32 as usize).is_some()
    }),
    ("a row inside in 16 bits", |a| {
        !a.is_inside() && words_of(&a.lit, a.row % (1 << 16)).is_some()
    }),
    ("a full row", |a| a.is_inside() && a.lit_cells() == ROW),
    ("an empty row", |a| a.is_inside() && a.lit_cells() == 0),
    ("a row with one bit clear", |a| a.lit_cells() == ROW - 1),
    ("a row with one bit set", |a| a.lit_cells() == 1),
    ("the first clear bit in the first word", |a| a.clear_in(0)),
    ("the first clear bit in the second word", |a| a.clear_in(1)),
    ("the first clear bit in the third word", |a| a.clear_in(2)),
    ("the first clear bit in the fourth word", |a| a.clear_in(3)),
    ("the first clear bit a word's first", |a| {
        (1..WORDS).any(|word| a.clear() == Some(BITS * word))
    }),
    ("the first clear bit a word's last", |a| {
        (1..=WORDS).any(|word| a.clear() == Some(BITS * word - 1))
    }),
    ("a width of 0", |a| a.is_inside() && a.width == 0),
    ("a width of 64", |a| a.is_inside() && a.width == 64),
    ("a width of 65", |a| a.is_inside() && a.width == 65),
    ("a width of 256", |a| a.is_inside() && a.width == 256),
    ("a width of 65,535", |a| a.is_inside() && a.width == 65_535),
    ("a width above 256, on a full row", |a| {
        a.width > 256 && a.lit_cells() == ROW
    }),
    ("all lit up to the width, and more", |a| {
        a.clear().is_some_and(|clear| clear > usize::from(a.width)) && a.width > 0
    }),
    ("all lit up to the width, and no more", |a| {
        a.clear() == Some(usize::from(a.width)) && a.width > 0
    }),
    ("the width's last column the first clear", |a| {
        a.clear().is_some_and(|c| c + 1 == usize::from(a.width))
    }),
];

impl Asked {
    fn rows(&self) -> usize {
        self.lit.len() / WORDS
    }

    fn is_inside(&self) -> bool {
        self.row < self.rows()
    }

    fn lit_cells(&self) -> usize {
        row_lit(&self.lit, self.row) as usize
    }

    /// The first clear bit of a row inside, 256 where all are set.
    fn clear(&self) -> Option<usize> {
        let first = row_first_unlit(&self.lit, ROW as u16, self.row);
        self.is_inside().then_some(first as usize)
    }

    fn clear_in(&self, word: usize) -> bool {
        self.clear().is_some_and(|clear| clear / BITS == word)
    }
}

#[derive(Default)]
pub struct MapTally {
    pub maps: u64,
    pub failed: u64,
    kinds: [u64; KINDS.len()],
    pub differences: BTreeMap<Difference, u64>,
}

impl MapTally {
    /// Puts a row of a map to the library; gives what differs.
    pub fn put(&mut self, library: &dyn Library, asked: &Asked) -> Vec<Difference> {
        self.maps += 1;
        for (times, (_, is_so)) in self.kinds.iter_mut().zip(KINDS) {
            *times += u64::from(is_so(asked));
        }
        let found = answers_apart(asked.said(library), asked.due());
        for &difference in &found {
            *self.differences.entry(difference).or_default() += 1;
        }
        self.failed += u64::from(!found.is_empty());
        found
    }

    /// Each kind with how often it was tried.
    pub fn kinds(&self) -> impl Iterator<Item = (u64, &'static str)> + '_ {
        let kinds = self.kinds.iter().zip(KINDS);
        kinds.map(|(times, (name, _))| (*times, *name))
    }

    pub fn never_tried(&self) -> Vec<&'static str> {
        let never = self.kinds().filter(|(times, _)| *times == 0);
        never.map(|(_, name)| name).collect()
    }
}

/// Sorts of rows that the maps of a run's surveys should have, each row a map of
/// its own.
const SORTS: &[Kind] = &[
    ("without a lit cell", |a| a.lit_cells() == 0),
    ("wholly lit", |a| a.lit_cells() == usize::from(a.width)),
    ("wholly lit, not to the end of a word", |a| {
        a.lit_cells() == usize::from(a.width) && usize::from(a.width) % BITS != 0
    }),
    ("wholly lit, beyond a word", |a| {
        a.lit_cells() == usize::from(a.width) && usize::from(a.width) > BITS
    }),
    ("lit from the left, not wholly", |a| {
        a.lit[0] & 1 == 1 && a.lit_cells() < usize::from(a.width)
    }),
    ("lit in the second word", |a| a.lit[1] != 0),
    ("lit in the third word", |a| a.lit[2] != 0),
    ("lit in the fourth word", |a| a.lit[3] != 0),
    ("lit in column 255", |a| a.lit[3] >> 63 == 1),
    ("lit across two words", |a| {
        a.lit[0] >> 63 == 1 && a.lit[1] & 1 == 1
    }),
    ("first unlit beyond the first word", |a| {
        let first = a.clear().unwrap_or(0);
        first >= BITS && first < usize::from(a.width)
    }),
];

/// How many rows of the maps of accepted calls are of each sort.
#[derive(Default)]
pub struct MapsShown {
    sorts: [u64; SORTS.len()],
}

impl MapsShown {
    pub fn add(&mut self, lit: &[u64], width: u16) {
        for words in lit.chunks_exact(WORDS) {
            let row = Asked {
                lit: words.into(),
                row: 0,
                width,
            };
            for (times, (_, is_so)) in self.sorts.iter_mut().zip(SORTS) {
                *times += u64::from(is_so(&row));
            }
        }
    }

    /// Each number with its name.
    pub fn told(&self) -> Vec<(u64, String)> {
        let sorts = self.sorts.iter().zip(SORTS);
        sorts
            .map(|(times, (name, _))| (*times, format!("rows {name}")))
            .collect()
    }
}
