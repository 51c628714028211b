//! Maps that no survey left, by the thousand: words of every sort, lengths that
//! are no whole rows, and rows inside, at the end and far beyond it.

use crate::call::{Library, ROW, WORDS};
use crate::compare::Difference;
use crate::map::{words_of, BITS};
use crate::map_compare::Asked;
use crate::map_tally::MapTally;
use crate::random::Random;
use crate::trial::SHOWN;

/// Bare map `number` of the run of `seed`.
pub fn bare_map(seed: u64, number: u64) -> Asked {
    let mut rng = Random::new(seed.rotate_left(48), number);
    let rng = &mut rng;
    let length = match rng.below(8) {
        0 => rng.below(WORDS + 2),
        1..=3 => WORDS * rng.between(1, 4) as usize,
        4..=6 => rng.below(20),
        _ => rng.pick(&[127, 128, 129]) * WORDS + rng.below(WORDS),
    };
    let rows = length.div_ceil(WORDS);
    let mut lit: Vec<u64> = (0..rows).flat_map(|_| row_of_words(rng)).collect();
    lit.truncate(length);
    let row = some_row(rng, length / WORDS);
    Asked {
        width: some_width(rng, &lit, row),
        lit: lit.into_boxed_slice(),
        row,
    }
}

/// Four words: full, empty, with one bit clear or set, lit up to a column, or each
/// of any sort.
fn row_of_words(rng: &mut Random) -> [u64; WORDS] {
    let mut words = match rng.below(6) {
        0 | 1 => [u64::MAX; WORDS],
        2 => [0; WORDS],
        3 => lit_up_to(rng.below(ROW + 1)),
        _ => return [0; WORDS].map(|_: u64| word(rng)),
    };
    if rng.once_in(2) {
        let column = match rng.once_in(2) {
            true => rng.below(ROW),
            false => BITS * rng.below(WORDS) + rng.pick(&[0, 1, BITS - 2, BITS - 1]),
        };
        words[column / BITS] ^= 1 << (column % BITS);
    }
    words
}

fn lit_up_to(columns: usize) -> [u64; WORDS] {
    let mut words = [0; WORDS];
    (0..columns).for_each(|i| words[i / BITS] |= 1 << (i % BITS));
    words
}

fn word(rng: &mut Random) -> u64 {
    let bit = 1 << rng.below(BITS);
    match rng.below(7) {
        0 | 1 => u64::MAX,
        2 => 0,
        3 => !bit,
        4 => bit,
        5 => bit - 1,
        _ => rng.next(),
    }
}

/// Most rows are inside; others are next to the end, or such that they are inside
/// in fewer bits.
fn some_row(rng: &mut Random, rows: usize) -> usize {
    let inside = rng.below(rows.max(1));
    match rng.below(16) {
        0 => rows,
        1 => rows + 1,
        2 => rows.saturating_sub(1),
        3 => usize::MAX - rng.below(2) * inside,
        4 => rng.pick(&[1 << 62, 1 << 63, 3 << 62]) + inside,
        5 => (rng.pick(&[1, 2, 1 << 16, 1 << 28]) << 32) + inside,
        6 => (1 << rng.pick(&[8, 16, 30, 31])) + inside,
        7 => rng.next() as usize,
        _ => inside,
    }
}

/// The ends of words, of rows and of numbers, and next to the first clear bit.
fn some_width(rng: &mut Random, lit: &[u64], row: usize) -> u16 {
    let ends = [0, 1, 63, 64, 65, 127, 128, 129, 192, 255, 256];
    let above = [257, 300, 320, 512, 32_768, 65_535];
    let lit = words_of(lit, row).map_or(0, |words| {
        let full = words.iter().take_while(|&&word| word == u64::MAX).count();
        let next = words.get(full).map_or(0, |word| word.trailing_ones());
        BITS * full + next as usize
    });
    match rng.below(5) {
        0 => rng.pick(&ends),
        1 => rng.pick(&above),
        2 => (lit as u16 + rng.pick(&[0, 1, 2])).saturating_sub(1),
        3 => rng.below(ROW + 1) as u16,
        _ => rng.next() as u16,
    }
}

/// Puts so many bare maps to the row calls, and tells which kinds were tried;
/// gives how many differ, and how many kinds never were in a run that is long
/// enough.
pub fn put_bare_maps(library: &dyn Library, seed: u64, wanted: u64) -> usize {
    let mut tally = MapTally::default();
    for number in 0..wanted {
        let asked = bare_map(seed, number);
        let found = tally.put(library, &asked);
        if !found.is_empty() && tally.failed <= SHOWN as u64 {
            show(library, &asked, &found);
        }
    }
    for (times, name) in tally.kinds() {
        println!("{times:8} bare maps: {name}");
    }
    for (difference, times) in &tally.differences {
        println!("{times:8} differences: {difference:?}");
    }
    println!("bare maps: {} put, {} differ", tally.maps, tally.failed);
    let never = match tally.maps < LONG {
        true => Vec::new(),
        false => tally.never_tried(),
    };
    if !never.is_empty() {
        println!("bare maps: never tried, {never:?}");
    }
    tally.failed as usize + never.len()
}

/// Maps of a run that must try every kind.
const LONG: u64 = 2_000;

fn show(library: &dyn Library, asked: &Asked, found: &[Difference]) {
    let Asked { lit, row, width } = asked;
    println!("DIFFERS a bare map, row {row}, width {width}: {found:?}");
    println!("  due: {:?}, said: {:?}", asked.due(), asked.said(library));
    println!("  words: {lit:016x?}");
}
