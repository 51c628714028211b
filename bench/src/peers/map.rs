//! The lit map. A row's words are those of a full row less its unlit stretches:
//! these are fewer than its cells, and none where it is full.

use outside::call::WORDS;

pub type Words = [u64; WORDS];

const BITS: usize = u64::BITS as usize;

/// A full row of so many columns.
pub fn full(width: u16) -> Words {
    let mut words = [u64::MAX; WORDS];
    clear(&mut words, usize::from(width), WORDS * BITS);
    words
}

/// Writes a row, given what it is when full and the pairs of its stretches.
#[inline]
pub fn write(words: &mut [u64], full: &Words, pairs: &[u16]) {
    words.copy_from_slice(full);
    for pair in pairs.chunks_exact(2) {
        let first = usize::from(pair[0]);
        clear(words, first, first + usize::from(pair[1]));
    }
}

/// Clears the columns from the first up to below the end.
#[inline]
fn clear(words: &mut [u64], first: usize, end: usize) {
    if first >= end {
        return;
    }
    let (low, high) = (first / BITS, (end - 1) / BITS);
    let below = !(u64::MAX << (first % BITS));
    let above = !(u64::MAX >> (BITS - 1 - (end - 1) % BITS));
    if low == high {
        words[low] &= below | above;
    } else {
        words[low] &= below;
        words[low + 1..high].fill(0);
        words[high] &= above;
    }
}

/// A row of any map; None where it is not wholly inside.
fn row_of(lit: &[u64], row: usize) -> Option<&[u64]> {
    lit.chunks_exact(WORDS).nth(row)
}

pub fn row_lit(lit: &[u64], row: usize) -> u32 {
    let ones = |words: &[u64]| words.iter().map(|word| word.count_ones()).sum();
    row_of(lit, row).map_or(0, ones)
}

pub fn row_first_unlit(lit: &[u64], width: u16, row: usize) -> u32 {
    let first = |words: &[u64]| {
        let full = words.iter().take_while(|&&word| word == u64::MAX).count();
        let ones = words.get(full).map_or(0, |word| (!word).trailing_zeros());
        (full * BITS) as u32 + ones
    };
    row_of(lit, row).map_or(0, first).min(u32::from(width))
}
