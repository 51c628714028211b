//! Stations of the two calls on a row: the maps of S, and bare ones.

use crate::map_cases::MapCase;
use crate::map_compare::Asked;
use crate::map_stations::{ALL, HUNDRED};

/// Words, a row, a width, and what both calls are due to answer.
type Told = (&'static [u64], usize, u16, [u32; 2]);

const FOUR_ROWS: &[u64] = &[0, 0, 0, 0, 6, 0, 0, 0, 6, 0, 0, 0, 0, 0, 0, 0];
const FULL: &[u64] = &[ALL; 4];
const SIXTY_FIVE: &[u64] = &[ALL, 1, 0, 0];
/// Two rows that nothing but their order tells apart.
const TWO_ROWS: &[u64] = &[1, 2, 4, 8, 0xff, 0xff, 0xff, 0xff];

/// The maps that S leaves.
const OF_S: &[Told] = &[
    (FOUR_ROWS, 0, 4, [0, 0]),
    (FOUR_ROWS, 1, 4, [2, 0]),
    (FOUR_ROWS, 2, 4, [2, 0]),
    (FOUR_ROWS, 3, 4, [0, 0]),
    (FOUR_ROWS, 4, 4, [0, 0]),
    (&[0, ALL, ALL, 0], 0, 256, [128, 0]),
    (&[ALL, ALL, 0, 0], 0, 256, [128, 128]),
    (&[0, 0, ALL, ALL], 0, 256, [128, 0]),
    (&HUNDRED, 0, 100, [50, 0]),
    (SIXTY_FIVE, 0, 65, [65, 65]),
    (SIXTY_FIVE, 0, 64, [65, 64]),
    (SIXTY_FIVE, 0, 66, [65, 65]),
    (SIXTY_FIVE, 0, 0, [65, 0]),
    (FULL, 0, 256, [256, 256]),
    (FULL, 0, 255, [256, 255]),
    (FULL, 0, 100, [256, 100]),
    (FULL, 0, 0, [256, 0]),
    // A column past the four words reads clear.
    (FULL, 0, 257, [256, 256]),
    (FULL, 0, 300, [256, 256]),
    (FULL, 0, 65_535, [256, 256]),
];

/// "a row not wholly inside the map answers 0 to both".
const AT_THE_END: &[Told] = &[
    (&[], 0, 4, [0, 0]),
    (&[], 1, 4, [0, 0]),
    (&[], usize::MAX, 256, [0, 0]),
    (&[ALL; 3], 0, 4, [0, 0]),
    (&[ALL; 7], 0, 256, [256, 256]),
    (&[ALL; 7], 1, 256, [0, 0]),
    (&[ALL; 8], 1, 256, [256, 256]),
    (&[ALL; 8], 1, 9, [256, 9]),
    (&[ALL; 8], 2, 256, [0, 0]),
    (&[ALL; 8], 3, 256, [0, 0]),
    (&[ALL; 9], 1, 256, [256, 256]),
    (&[ALL; 9], 2, 256, [0, 0]),
    (&[ALL; 11], 2, 64, [0, 0]),
    (&[ALL; 8], usize::MAX, 256, [0, 0]),
    // 4 times the row is a place inside the map in 64 bits, and in 32.
    (&[ALL; 8], 1 << 62, 256, [0, 0]),
    (&[ALL; 8], (1 << 62) + 1, 256, [0, 0]),
    (&[ALL; 8], 1 << 63, 256, [0, 0]),
    (&[ALL; 8], 1 << 30, 256, [0, 0]),
    (&[ALL; 8], 1 << 32, 256, [0, 0]),
    (&[ALL; 8], (1 << 32) + 1, 256, [0, 0]),
    (&[ALL; 8], 65_536, 256, [0, 0]),
];

/// Words, bits and rows in their order.
const IN_ORDER: &[Told] = &[
    (TWO_ROWS, 0, 256, [4, 1]),
    (TWO_ROWS, 1, 256, [32, 8]),
    (TWO_ROWS, 1, 8, [32, 8]),
    (TWO_ROWS, 1, 7, [32, 7]),
    (&[ALL, ALL, ALL, 0xff], 0, 256, [200, 200]),
    (&[ALL, ALL, 0xffff, 0], 0, 256, [144, 144]),
    (&[ALL, ALL >> 1, ALL, ALL], 0, 256, [255, 127]),
    (&[ALL, ALL, ALL, ALL >> 1], 0, 256, [255, 255]),
    (&[ALL, ALL - 1, ALL, ALL], 0, 256, [255, 64]),
    (&[ALL, ALL - 1, ALL, ALL], 0, 64, [255, 64]),
    (&[ALL, ALL - 1, ALL, ALL], 0, 63, [255, 63]),
    (&[ALL - 1, ALL, ALL, ALL], 0, 256, [255, 0]),
    (&[1 << 63, 0, 0, 0], 0, 256, [1, 0]),
    (&[1, 0, 0, 0], 0, 256, [1, 1]),
    (&[0, 0, 0, 1], 0, 256, [1, 0]),
    (&[ALL, ALL, ALL, ALL, 0, 0, 0, 0], 0, 300, [256, 256]),
    (&[ALL, ALL, ALL, ALL, 7, 0, 0, 0], 0, 300, [256, 256]),
    (&[ALL, ALL, ALL, ALL, 7, 0, 0, 0], 1, 300, [3, 3]),
];

pub fn bare_stations() -> Vec<MapCase> {
    let all = OF_S.iter().chain(AT_THE_END).chain(IN_ORDER);
    let told = |&(lit, row, width, due): &Told| MapCase {
        name: format!("{} words, row {row}, width {width}", lit.len()),
        asked: Asked {
            lit: lit.into(),
            row,
            width,
        },
        due,
    };
    all.map(told).collect()
}
