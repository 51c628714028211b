//! Calls on a row of a map that are right but for one thing.

use crate::call::{ROW, WORDS};
use crate::map::{is_lit, row_first_unlit, row_lit, words_of, BITS};

pub type LitCells = fn(&[u64], usize) -> u32;
pub type FirstUnlit = fn(&[u64], u16, usize) -> u32;

pub const LIT_CELLS: &[(&str, LitCells)] = &[
    ("lit: the whole map counted", |lit, row| {
        words_of(lit, row).map_or(0, |_| ones(lit))
    }),
    ("lit: the first word alone", |lit, row| {
        words_of(lit, row).map_or(0, |words| words[0].count_ones())
    }),
    ("lit: the third word for the fourth", |lit, row| {
        words_of(lit, row).map_or(0, |w| ones(&w[..3]) + w[2].count_ones())
    }),
    ("lit: zeros for ones", |lit, row| {
        words_of(lit, row).map_or(0, |words| ROW as u32 - ones(words))
    }),
    ("lit: up to the first unlit column", |lit, row| {
        row_first_unlit(lit, ROW as u16, row)
    }),
    ("lit: in eight bits", |lit, row| row_lit(lit, row) % 256),
    ("lit: words in 32 bits", |lit, row| {
        let half = |word: &u64| (*word as u32).count_ones();
        words_of(lit, row).map_or(0, |words| words.iter().map(half).sum())
    }),
    ("lit: a row of one word", |lit, row| {
        lit.get(row).map_or(0, |word| word.count_ones())
    }),
    ("lit: a row in the place of its number", |lit, row| {
        let words = lit.get(row..).and_then(|rest| rest.get(..WORDS));
        words.map_or(0, ones)
    }),
    ("lit: a row begun inside the map", |lit, row| {
        ones(lit.chunks(WORDS).nth(row).unwrap_or(&[]))
    }),
    ("lit: the last row again at the map's end", |lit, row| {
        row_lit(lit, clamped(lit, row))
    }),
    ("lit: none in the last row", |lit, row| {
        let last = (lit.len() / WORDS).saturating_sub(1);
        row_lit(lit, row) * u32::from(row < last)
    }),
    ("lit: none in a map with words over", |lit, row| {
        row_lit(lit, row) * u32::from(lit.len() % WORDS == 0)
    }),
    ("lit: 4 times the row in 64 bits", |lit, row| {
        row_lit(lit, wrapped(row))
    }),
    ("lit: the row in 32 bits", |lit, row| {
        row_lit(lit, row as u32 as usize)
    }),
    ("lit: the row in 16 bits", |lit, row| {
        row_lit(lit, usize::from(row as u16))
    }),
];

pub const FIRST_UNLIT: &[(&str, FirstUnlit)] = &[
    ("first: trailing zeros of the word", |lit, width, row| {
        by_words(lit, width, row, u64::trailing_zeros)
    }),
    (
        "first: leading zeros of the complement",
        |lit, width, row| by_words(lit, width, row, u64::leading_ones),
    ),
    ("first: a full word not carried", |lit, width, row| {
        let first = |words: &[u64]| words[0].trailing_ones();
        words_of(lit, row).map_or(0, |words| first(words).min(u32::from(width)))
    }),
    ("first: carried once only", |lit, width, row| {
        below(lit, width, row, |words| first_in(&words[..2]))
    }),
    (
        "first: no further than the third word",
        |lit, width, row| below(lit, width, row, |words| first_in(&words[..3])),
    ),
    ("first: the second word from 63", |lit, width, row| {
        below(lit, width, row, |words| {
            let first = first_in(words);
            first - usize::from((BITS..2 * BITS).contains(&first))
        })
    }),
    ("first: the word's own column", |lit, width, row| {
        below(lit, width, row, |words| match first_in(words) {
            ROW => ROW,
            first => first % BITS,
        })
    }),
    ("first: the word alone", |lit, width, row| {
        below(lit, width, row, |words| first_in(words) / BITS * BITS)
    }),
    (
        "first: the larger of width and column",
        |lit, width, row| {
            let larger = |words| (first_in(words) as u32).max(u32::from(width));
            words_of(lit, row).map_or(0, larger)
        },
    ),
    ("first: whatever the width", |lit, _, row| {
        words_of(lit, row).map_or(0, first_in_u32)
    }),
    ("first: always the width", |lit, width, row| {
        words_of(lit, row).map_or(0, |_| u32::from(width))
    }),
    ("first: 0 where all are lit", |lit, width, row| {
        let first = row_first_unlit(lit, width, row);
        first * u32::from(first < u32::from(width))
    }),
    ("first: a lit column beyond the words", |lit, width, row| {
        below(lit, width, row, |words| match first_in(words) {
            ROW => usize::MAX,
            first => first,
        })
    }),
    ("first: 255 at most", |lit, width, row| {
        row_first_unlit(lit, width, row).min(255)
    }),
    ("first: the width in eight bits", |lit, width, row| {
        row_first_unlit(lit, width % 256, row)
    }),
    ("first: 0 for a width above 256", |lit, width, row| {
        row_first_unlit(lit, width, row) * u32::from(width <= 256)
    }),
    ("first: on into the next rows", |lit, width, row| {
        let from = |_| first_in(&lit[WORDS * row..]) as u32;
        words_of(lit, row).map_or(0, |words| from(words).min(u32::from(width)))
    }),
    ("first: the last lit column's next", |lit, width, row| {
        below(lit, width, row, |words| {
            let last = (0..ROW).rev().find(|&i| is_lit(words, i));
            last.map_or(0, |last| last + 1)
        })
    }),
    ("first: the first lit column", |lit, width, row| {
        below(lit, width, row, |words| {
            (0..ROW).find(|&i| is_lit(words, i)).unwrap_or(ROW)
        })
    }),
    ("first: a row begun inside the map", |lit, width, row| {
        let words = lit.chunks(WORDS).nth(row);
        words.map_or(0, |words| (first_in(words) as u32).min(u32::from(width)))
    }),
    (
        "first: the last row again at the map's end",
        |lit, width, row| row_first_unlit(lit, width, clamped(lit, row)),
    ),
    (
        "first: the width beyond the map",
        |lit, width, row| match words_of(lit, row) {
            None => u32::from(width),
            Some(_) => row_first_unlit(lit, width, row),
        },
    ),
    ("first: 4 times the row in 64 bits", |lit, width, row| {
        row_first_unlit(lit, width, wrapped(row))
    }),
    ("first: the row in 32 bits", |lit, width, row| {
        row_first_unlit(lit, width, row as u32 as usize)
    }),
    ("first: the row in 16 bits", |lit, width, row| {
        row_first_unlit(lit, width, usize::from(row as u16))
    }),
];

fn ones(words: &[u64]) -> u32 {
    words.iter().map(|word| word.count_ones()).sum()
}

/// The first clear bit of the words, or as many as there are.
fn first_in(words: &[u64]) -> usize {
    let all = words.len() * BITS;
    (0..all).find(|&i| !is_lit(words, i)).unwrap_or(all)
}

fn first_in_u32(words: &[u64]) -> u32 {
    first_in(words) as u32
}

/// The smaller of the width and a column found in another way.
fn below(lit: &[u64], width: u16, row: usize, found: impl Fn(&[u64]) -> usize) -> u32 {
    let column = |words| found(words).min(usize::from(width));
    words_of(lit, row).map_or(0, column) as u32
}

/// Word by word, each with another number than the trailing zeros of its
/// complement; 64 leads on to the next.
fn by_words(lit: &[u64], width: u16, row: usize, zeros: fn(u64) -> u32) -> u32 {
    below(lit, width, row, |words| {
        let found = words.iter().map(|&word| zeros(word) as usize);
        let mut found = found.enumerate();
        let first = found.find(|(_, column)| *column < BITS);
        first.map_or(ROW, |(word, column)| BITS * word + column)
    })
}

/// The row just behind the map's rows taken for the last of them.
fn clamped(lit: &[u64], row: usize) -> usize {
    match row == lit.len() / WORDS {
        true => row.saturating_sub(1),
        false => row,
    }
}

/// The row whose words stand in the place that 64 bits tell.
fn wrapped(row: usize) -> usize {
    row.wrapping_mul(WORDS) / WORDS
}
