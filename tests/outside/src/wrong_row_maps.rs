//! Lines with wrong words of the map.

use crate::call::{ROW, WORDS};
use crate::map::{is_lit, lit_row, BITS};
use crate::row::{Line, Span};
use crate::row_fault::{Moment, Tell};

pub const MAPS: &[(&str, Tell)] = &[
    ("map: lit beyond the width", |m, line| {
        also_lit(line, columns(m.span, ROW))
    }),
    ("map: a word lit to its end beyond the width", |m, line| {
        let width = width(m);
        match !m.span.is_empty() && usize::from(m.span.last) >= width {
            true => also_lit(line, width..width.next_multiple_of(BITS)),
            false => line,
        }
    }),
    ("map: a span with no column lit", |m, line| {
        let turned = Span {
            first: m.span.last,
            last: m.span.first,
        };
        match m.span.is_empty() {
            true => also_lit(line, columns(turned, width(m))),
            false => line,
        }
    }),
    (
        "map: the first column of a span with no column lit",
        |m, line| {
            let first = usize::from(m.span.first);
            match m.span.is_empty() && first < width(m) {
                true => also_lit(line, first..first + 1),
                false => line,
            }
        },
    ),
    ("map: the words before the span", |m, line| Line {
        map: lit_row(&m.before.cells),
        ..line
    }),
    ("map: the span alone", |m, line| {
        also_lit(blank(line), columns(m.span, width(m)))
    }),
    ("map: cells newly lit alone", |m, line| {
        let newly = m.before.unlit_in(m.span).into_iter();
        let newly = newly.map(usize::from);
        newly.fold(blank(line), |line, i| also_lit(line, i..i + 1))
    }),
    ("map: the span's last column clear", |m, mut line| {
        if let Some(&last) = m.before.unlit_in(m.span).last() {
            line.map[usize::from(last) / BITS] &= !(1 << (last % 64));
        }
        line
    }),
    ("map: the span turned on and off", |m, mut line| {
        let unlit = m.before.unlit_in(m.span);
        let again = |i: &usize| !unlit.contains(&(*i as u16));
        for i in columns(m.span, width(m)).filter(again) {
            line.map[i / BITS] &= !(1 << (i % BITS));
        }
        line
    }),
    ("map: unlit for lit", |m, line| {
        let unlit = m.after.cells.iter().map(|&cell| u16::from(cell == 0));
        Line {
            map: lit_row(&unlit.collect::<Vec<u16>>()),
            ..line
        }
    }),
    ("map: complements of the words", |_, line| Line {
        map: line.map.map(|word| !word),
        ..line
    }),
    ("map: words from the last", |_, mut line| {
        line.map.reverse();
        line
    }),
    ("map: bits turned round", |_, line| Line {
        map: line.map.map(u64::reverse_bits),
        ..line
    }),
    ("map: a full word for 1 << 64", |_, line| Line {
        map: line.map.map(|w| if w == u64::MAX { 0 } else { w }),
        ..line
    }),
    ("map: all in the first word", |_, line| Line {
        map: [line.map.iter().fold(0, |all, word| all | word), 0, 0, 0],
        ..line
    }),
    ("map: no fourth word", |_, mut line| {
        line.map[3] = 0;
        line
    }),
    ("map: words in 32 bits", |_, line| Line {
        map: line.map.map(|word| u64::from(word as u32)),
        ..line
    }),
    ("map: a span in its first word alone", |m, mut line| {
        let first = usize::from(m.span.first) / BITS;
        let before = lit_row(&m.before.cells);
        let others = (0..WORDS).filter(|&k| k != first);
        others.for_each(|k| line.map[k] = before[k]);
        line
    }),
    ("map: a span in its ends' words alone", |m, mut line| {
        let ends = [m.span.first, m.span.last].map(|i| usize::from(i) / BITS);
        let before = lit_row(&m.before.cells);
        let others = (0..WORDS).filter(|k| !ends.contains(k));
        others.for_each(|k| line.map[k] = before[k]);
        line
    }),
    ("map: the first unlit column lit too", |m, line| {
        let first = (0..width(m)).find(|&i| !is_lit(&line.map, i));
        first.map_or(line.clone(), |first| also_lit(line, first..first + 1))
    }),
    ("map: empty where the row is full", |_, line| Line {
        map: if line.full { [0; WORDS] } else { line.map },
        ..line
    }),
];

fn width(m: &Moment) -> usize {
    m.before.cells.len()
}

/// The span's columns below a width.
fn columns(span: Span, width: usize) -> std::ops::Range<usize> {
    let end = (usize::from(span.last) + 1).min(width);
    usize::from(span.first)..end
}

fn blank(line: Line) -> Line {
    let map = [0; WORDS];
    Line { map, ..line }
}

fn also_lit(mut line: Line, columns: std::ops::Range<usize>) -> Line {
    columns.for_each(|i| line.map[i / BITS] |= 1 << (i % BITS));
    line
}
