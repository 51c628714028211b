//! Writers of the lit map that are right but for one thing, and refusals that
//! touch it.

use crate::call::{Lent, ROW, WORDS};
use crate::map::{is_lit, BITS};
use crate::wrong_buffers::{Spoil, Trace};

pub const MAP_SPOILS: &[(&str, Spoil)] = &[
    (
        "map: the last column's word lit to its end",
        |_, _, lent| {
            let width = width(lent);
            each_row(lent, |row| {
                if is_lit(row, width - 1) {
                    light(row, width..width.next_multiple_of(BITS))
                }
            })
        },
    ),
    (
        "map: the row lit to its end behind the last column",
        |_, _, lent| {
            let width = width(lent);
            each_row(lent, |row| {
                if is_lit(row, width - 1) {
                    light(row, width..ROW)
                }
            })
        },
    ),
    ("map: lit beyond the width, always", |_, _, lent| {
        let width = width(lent);
        each_row(lent, |row| light(row, width..ROW))
    }),
    ("map: one column more", |_, _, lent| {
        let width = width(lent);
        each_row(lent, |row| light(row, width..(width + 1).min(ROW)))
    }),
    ("map: words of a row from its last", |_, _, lent| {
        each_row(lent, <[u64]>::reverse)
    }),
    ("map: words of a row two by two", |_, _, lent| {
        each_row(lent, |row| row.rotate_left(2))
    }),
    ("map: bits turned round in a word", |_, _, lent| {
        each_word(lent, u64::reverse_bits)
    }),
    ("map: bytes turned round in a word", |_, _, lent| {
        each_word(lent, u64::swap_bytes)
    }),
    ("map: columns from the right", |_, _, lent| {
        let width = width(lent);
        each_row(lent, |row| {
            let from = row.to_vec();
            row.fill(0);
            let lit = (0..width).filter(|&i| is_lit(&from, width - 1 - i));
            lit.for_each(|i| light(row, i..i + 1));
        })
    }),
    ("map: rows from the bottom", |_, _, lent| {
        let rows = lent.lit.chunks(WORDS).rev();
        lent.lit = rows.flatten().copied().collect();
    }),
    ("map: every row the first", |_, _, lent| {
        let first = lent.lit[..WORDS].to_vec();
        each_row(lent, |row| row.copy_from_slice(&first))
    }),
    ("map: left as lent", |_, before, lent| {
        lent.lit.copy_from_slice(&before.lit)
    }),
    ("map: rows without a span left", |_, before, lent| {
        let rows = lent.lit.chunks_mut(WORDS).zip(before.lit.chunks(WORDS));
        for (own, old) in rows.filter(|(own, _)| **own == [0; WORDS]) {
            own.copy_from_slice(old);
        }
    }),
    ("map: words without a span left", |_, before, lent| {
        let words = lent.lit.iter_mut().zip(&before.lit);
        for (own, old) in words.filter(|(own, _)| **own == 0) {
            *own = *old;
        }
    }),
    ("map: words beyond the width left", |_, before, lent| {
        let needed = width(lent).div_ceil(BITS);
        let rows = lent.lit.chunks_mut(WORDS).zip(before.lit.chunks(WORDS));
        rows.for_each(|(own, old)| own[needed..].copy_from_slice(&old[needed..]));
    }),
    ("map: last row left", |_, before, lent| {
        let from = lent.lit.len() - WORDS;
        lent.lit[from..].copy_from_slice(&before.lit[from..]);
    }),
    ("map: added to what was lent", |_, before, lent| {
        let words = lent.lit.iter_mut().zip(&before.lit);
        words.for_each(|(own, old)| *own |= old);
    }),
    ("map: unlit for lit", |_, _, lent| {
        let width = width(lent);
        each_row(lent, |row| {
            let unlit: Vec<usize> = (0..width).filter(|&i| !is_lit(row, i)).collect();
            row.fill(0);
            unlit.into_iter().for_each(|i| light(row, i..i + 1));
        })
    }),
    ("map: unlit for lit, beyond the width too", |_, _, lent| {
        each_word(lent, |word| !word)
    }),
    ("map: the first 64 columns alone", |_, _, lent| {
        each_row(lent, |row| row[1..].fill(0))
    }),
    ("map: the fourth word unwritten", |_, _, lent| {
        each_row(lent, |row| row[3] = 0)
    }),
    ("map: words in 32 bits", |_, _, lent| {
        each_word(lent, |word| u64::from(word as u32))
    }),
    ("map: bit i mod 32 of word i / 32", |_, _, lent| {
        each_row(lent, |row| {
            let from = row.to_vec();
            let half = |k: usize| from[k / 2] >> (32 * (k % 2)) & 0xffff_ffff;
            row.iter_mut().zip(0..).for_each(|(own, k)| *own = half(k));
        })
    }),
    ("map: a full word for 1 << 64", |_, _, lent| {
        each_word(lent, |word| if word == u64::MAX { 0 } else { word })
    }),
    ("map: bits counted from 1", |_, _, lent| {
        each_word(lent, |word| word << 1)
    }),
    (
        "map: lit up to the first unlit column alone",
        |_, _, lent| {
            each_row(lent, |row| {
                let lit = (0..ROW).take_while(|&i| is_lit(row, i)).count();
                row.fill(0);
                light(row, 0..lit);
            })
        },
    ),
    ("map: all lit but the list's first stretch", |_, _, lent| {
        let width = width(lent);
        let lists = lent.unlit.chunks(ROW);
        let firsts: Vec<[usize; 2]> = lists
            .map(|list| [0, 1].map(|k: usize| usize::from(list[k])))
            .collect();
        for (row, [offset, length]) in lent.lit.chunks_mut(WORDS).zip(firsts) {
            row.fill(0);
            light(row, 0..offset);
            light(row, offset + length..width);
        }
    }),
];

pub const MAP_TRACES: &[(&str, Trace)] = &[
    ("map cleared", |_, lent| lent.lit.fill(0)),
    ("one word touched", |_, lent| {
        if let Some(word) = lent.lit.last_mut() {
            *word = word.wrapping_add(1);
        }
    }),
    ("11 clears the map", |number, lent| {
        if number == 11 {
            lent.lit.fill(0)
        }
    }),
    ("12 clears the map", |number, lent| {
        if number == 12 {
            lent.lit.fill(0)
        }
    }),
    ("15 clears the map", |number, lent| {
        if number == 15 {
            lent.lit.fill(0)
        }
    }),
];

/// The picture's columns.
fn width(lent: &Lent) -> usize {
    lent.picture.len() / (lent.lit.len() / WORDS)
}

fn each_row(lent: &mut Lent, change: impl FnMut(&mut [u64])) {
    lent.lit.chunks_mut(WORDS).for_each(change)
}

fn each_word(lent: &mut Lent, change: impl Fn(u64) -> u64) {
    lent.lit.iter_mut().for_each(|word| *word = change(*word))
}

fn light(row: &mut [u64], columns: std::ops::Range<usize>) {
    columns.for_each(|i| row[i / BITS] |= 1 << (i % BITS));
}
