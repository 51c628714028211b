//! Stations of one row, every number worked out by hand: spans over two
//! stretches, on a full row and beyond the width, and the maker's numbers.

use crate::call::WORDS;
use crate::row::{span, Pair, Span};
use crate::row_cases::{laid_as_told, Made, RowCase, Told};
use crate::row_compare::Bounds;
use crate::worst::WorstSpan;

/// A name, a span, what it looks at, what it lights and the pairs after it.
type Station = (&'static str, Span, usize, usize, &'static [Pair]);

/// Over the stretches 4 to 11 and 14 to 15 of a row 16 wide.
const OVER_TWO: &[Station] = &[
    ("before both", span(1, 2), 1, 0, &[[4, 8], [14, 2]]),
    ("into the first", span(2, 6), 1, 3, &[[7, 5], [14, 2]]),
    ("splits", span(6, 8), 1, 3, &[[4, 2], [9, 3], [14, 2]]),
    ("over the first", span(2, 11), 1, 8, &[[14, 2]]),
    ("ends with the first", span(6, 11), 1, 6, &[[4, 2], [14, 2]]),
    (
        "ends before its end",
        span(6, 10),
        1,
        5,
        &[[4, 2], [11, 1], [14, 2]],
    ),
    ("ends after its end", span(6, 12), 2, 6, &[[4, 2], [14, 2]]),
    ("between them", span(12, 13), 2, 0, &[[4, 8], [14, 2]]),
    ("into the second", span(2, 14), 2, 9, &[[15, 1]]),
    (
        "from one to the other",
        span(6, 14),
        2,
        7,
        &[[4, 2], [15, 1]],
    ),
    ("the second's first", span(12, 14), 2, 1, &[[4, 8], [15, 1]]),
    ("the second's last", span(15, 15), 2, 1, &[[4, 8], [14, 1]]),
    ("the whole row", span(0, 15), 2, 10, &[]),
    ("ends beyond the width", span(14, 20), 2, 2, &[[4, 8]]),
    ("ends just beyond it", span(10, 16), 2, 4, &[[4, 6]]),
    ("beyond the width", span(16, 16), 2, 0, &[[4, 8], [14, 2]]),
    ("far beyond it", span(300, 1_029), 2, 0, &[[4, 8], [14, 2]]),
    (
        "the last number",
        span(65_535, 65_535),
        2,
        0,
        &[[4, 8], [14, 2]],
    ),
    ("all numbers", span(0, 65_535), 2, 10, &[]),
    ("no column", span(9, 8), 0, 0, &[[4, 8], [14, 2]]),
    (
        "no column, widest",
        span(65_535, 0),
        0,
        0,
        &[[4, 8], [14, 2]],
    ),
    (
        "no column, beyond",
        span(65_535, 65_534),
        0,
        0,
        &[[4, 8], [14, 2]],
    ),
];

/// On a row 16 wide with every column lit.
const ON_A_FULL_ROW: &[Station] = &[
    ("the whole full row", span(0, 15), 0, 0, &[]),
    ("a part of the full row", span(4, 11), 0, 0, &[]),
    ("beyond the full row", span(20, 30), 0, 0, &[]),
    ("no column of the full row", span(9, 8), 0, 0, &[]),
];

pub fn row_stations() -> Vec<RowCase> {
    let two = || {
        vec![
            (span(0, 3), 1, 4, vec![[4, 12]]),
            (span(12, 13), 1, 2, vec![[4, 8], [14, 2]]),
        ]
    };
    let full = || vec![(span(0, 15), 1, 16, vec![])];
    let mut all: Vec<RowCase> = OVER_TWO.iter().map(|one| after(two(), one)).collect();
    all.extend(ON_A_FULL_ROW.iter().map(|one| after(full(), one)));
    all.extend([1, 255, 256].map(at_once));
    all.push(no_column());
    all.extend(MAPPED.iter().map(mapped));
    all.extend([257, 65_535].map(no_row));
    all.extend([worst(), reaching()]);
    all
}

/// The station's span laid on a row 16 wide after others.
fn after(mut told: Vec<Told>, &(name, span, looked, lit, pairs): &Station) -> RowCase {
    told.push((span, looked, lit, pairs.to_vec()));
    RowCase::Spans(laid_as_told(name.to_string(), 16, told))
}

/// A row lit by one span.
fn at_once(width: u16) -> RowCase {
    let told = (span(0, width - 1), 1, usize::from(width), vec![]);
    RowCase::Spans(laid_as_told(
        format!("all of {width} columns"),
        width,
        vec![told],
    ))
}

/// A row 0 wide has no stretch, and no column that is unlit.
fn no_column() -> RowCase {
    let told = [span(0, 0), span(0, 3), span(1, 0)].map(|over| (over, 0, 0, vec![]));
    RowCase::Spans(laid_as_told("a row 0 wide".to_string(), 0, told.to_vec()))
}

/// Nothing is told of a row that is above 256 wide.
fn no_row(width: u16) -> RowCase {
    let mut laid = laid_as_told(format!("a row {width} wide"), width, Vec::new());
    laid.spans = vec![span(0, 3), span(1, 0)];
    RowCase::Spans(laid)
}

/// A width, and spans with the stretches looked at, the cells newly lit, the pairs
/// and the words after each.
type Mapped = (
    u16,
    &'static [(Span, usize, usize, &'static [Pair], [u64; WORDS])],
);

const ALL: u64 = u64::MAX;

/// Spans that end at a word's end or across it, beyond the width or with no column:
/// "Map and list describe the same cells on a fresh row, and after every span if
/// they did before it."
const MAPPED: &[Mapped] = &[
    (
        256,
        &[
            (span(0, 63), 1, 64, &[[64, 192]], [ALL, 0, 0, 0]),
            (
                span(128, 191),
                1,
                64,
                &[[64, 64], [192, 64]],
                [ALL, 0, ALL, 0],
            ),
            (
                span(127, 127),
                1,
                1,
                &[[64, 63], [192, 64]],
                [ALL, 1 << 63, ALL, 0],
            ),
            (
                span(100, 20),
                0,
                0,
                &[[64, 63], [192, 64]],
                [ALL, 1 << 63, ALL, 0],
            ),
            (
                span(192, 192),
                2,
                1,
                &[[64, 63], [193, 63]],
                [ALL, 1 << 63, ALL, 1],
            ),
            (
                span(255, 255),
                2,
                1,
                &[[64, 63], [193, 62]],
                [ALL, 1 << 63, ALL, 1 << 63 | 1],
            ),
            (span(0, 300), 2, 125, &[], [ALL; WORDS]),
            (span(0, 255), 0, 0, &[], [ALL; WORDS]),
        ],
    ),
    (
        100,
        &[
            (
                span(60, 70),
                1,
                11,
                &[[0, 60], [71, 29]],
                [0xf << 60, 0x7f, 0, 0],
            ),
            (
                span(90, 300),
                2,
                10,
                &[[0, 60], [71, 19]],
                [0xf << 60, 0xf_fc00_007f, 0, 0],
            ),
            (
                span(100, 127),
                2,
                0,
                &[[0, 60], [71, 19]],
                [0xf << 60, 0xf_fc00_007f, 0, 0],
            ),
            (span(0, 65_535), 2, 79, &[], [ALL, 0xf_ffff_ffff, 0, 0]),
        ],
    ),
    (
        65,
        &[
            (span(64, 64), 1, 1, &[[0, 64]], [0, 1, 0, 0]),
            (span(0, 64), 1, 64, &[], [ALL, 1, 0, 0]),
        ],
    ),
    (
        64,
        &[
            (span(64, 64), 1, 0, &[[0, 64]], [0; WORDS]),
            (span(63, 64), 1, 1, &[[0, 63]], [1 << 63, 0, 0, 0]),
            (span(0, 63), 1, 63, &[], [ALL, 0, 0, 0]),
        ],
    ),
];

fn mapped((width, told): &Mapped) -> RowCase {
    let lines = told.iter();
    let lines = lines.map(|&(span, looked, lit, pairs, _)| (span, looked, lit, pairs.to_vec()));
    let name = format!("words of a row {width} wide");
    let mut laid = laid_as_told(name, *width, lines.collect());
    for (line, (.., words)) in laid.due.iter_mut().zip(*told) {
        line.map = *words;
    }
    RowCase::Spans(laid)
}

/// The maker's spans are single columns; what the first so many look at.
fn worst() -> RowCase {
    let told = [
        (0, 1, Some(0)),
        (1, 1, Some(1)),
        (2, 3, Some(3)),
        (3, 5, Some(6)),
        (127, 253, Some(8_128)),
        (128, 255, Some(8_256)),
        (129, 255, Some(8_384)),
        (300, 255, Some(30_272)),
        (1_000, 255, Some(119_872)),
        (u64::MAX, 255, None),
    ];
    let due = told.map(|(_, column, reach)| WorstSpan {
        span: span(column, column),
        reach,
    });
    RowCase::Made(Made {
        name: "the maker's numbers".to_string(),
        numbers: told.map(|one| one.0).to_vec(),
        due: due.to_vec(),
    })
}

/// Each span reaches its bound, and the first n the sum.
fn reaching() -> RowCase {
    let bounds = [0, 1, 2, 3, 127, 128, 129].into_iter();
    let bounds = bounds.zip([1, 1, 2, 3, 127, 128, 128]);
    let sums = [
        (0, 0),
        (1, 1),
        (2, 3),
        (127, 8_128),
        (128, 8_256),
        (129, 8_384),
        (300, 30_272),
        (1_000, 119_872),
    ];
    RowCase::Bounds(Bounds {
        name: "the maker's sums".to_string(),
        bounds: bounds.collect(),
        reaches: sums.to_vec(),
    })
}
