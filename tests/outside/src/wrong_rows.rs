//! Lines that are wrong in another thing than the stretches looked at and the map.

use crate::row::{Line, Span};
use crate::row_compare::RowDifference::{self, *};
use crate::row_fault::{Moment, Tell, Write};

pub const LINES: &[(&str, &[RowDifference], Tell)] = &[
    ("one more looked at, always", &[Looked, Bound], |_, line| {
        Line {
            looked: line.looked + 1,
            ..line
        }
    }),
    ("lit counted by the span's length", &[Lit], |m, line| {
        lit(line, columns(m).len())
    }),
    ("lit counted beyond the width", &[Lit], |m, line| {
        let from = m.before.width().max(m.span.first);
        let beyond = (usize::from(m.span.last) + 1).saturating_sub(usize::from(from));
        Line {
            lit: line.lit + beyond,
            ..line
        }
    }),
    ("lit in the first stretch alone", &[Lit], |m, line| {
        let first = met(m).next();
        lit(line, first.unwrap_or(0))
    }),
    ("lit in the last stretch alone", &[Lit], |m, line| {
        let last = met(m).last();
        lit(line, last.unwrap_or(0))
    }),
    ("lit a cell short in each stretch", &[Lit], |m, line| {
        lit(line, met(m).map(|cells| cells - 1).sum())
    }),
    ("lit in eight bits", &[Lit], |_, line| Line {
        lit: line.lit % 256,
        ..line
    }),
    ("lit added up over the spans", &[Lit], |m, line| {
        let all = m.after.cells.iter().filter(|&&cell| cell > 0).count();
        lit(line, all)
    }),
    ("full with one column unlit", &[Full], |_, line| Line {
        full: line.pairs.iter().map(|pair| pair[1]).sum::<u16>() <= 1,
        ..line
    }),
    ("full with one stretch left", &[Full], |_, line| Line {
        full: line.pairs.len() <= 1,
        ..line
    }),
    ("full where the span is lit", &[Full], |m, line| Line {
        full: m.after.unlit_in(m.span).is_empty(),
        ..line
    }),
    ("full where the last column is lit", &[Full], |m, line| {
        Line {
            full: m.after.cells.last() != Some(&0),
            ..line
        }
    }),
    ("full only when it becomes so", &[Full], |_, line| Line {
        full: line.full && line.lit > 0,
        ..line
    }),
    ("never full", &[Full], |_, line| Line {
        full: false,
        ..line
    }),
    ("touching pairs", &[Pairs], |_, mut line| {
        if let Some(at) = line.pairs.iter().position(|pair| pair[1] > 1) {
            let [offset, length] = line.pairs[at];
            line.pairs[at] = [offset + 1, length - 1];
            line.pairs.insert(at, [offset, 1]);
        }
        line
    }),
    ("a pair of length 0 kept", &[Pairs], |m, mut line| {
        let gone = |s: &Span| m.span.first <= s.first && s.last <= m.span.last;
        let stretches = m.before.stretches();
        if let Some(stretch) = stretches.iter().find(|s| gone(s)) {
            line.pairs.push([stretch.first, 0]);
            line.pairs.sort();
        }
        line
    }),
    ("the right piece of a split lost", &[Pairs], |m, line| {
        without(line, |o| m.split().is_some() && o == m.span.last + 1)
    }),
    ("the left piece of a split lost", &[Pairs], |m, line| {
        without(line, |o| m.split().is_some_and(|split| o == split.first))
    }),
    ("a split's right piece put last", &[Pairs], |m, mut line| {
        let is_right = |pair: &[u16; 2]| pair[0] == m.span.last + 1;
        if m.split().is_some() {
            let at = line.pairs.iter().position(is_right);
            let right = line.pairs.remove(at.expect("the right piece"));
            line.pairs.push(right);
        }
        line
    }),
    ("ends for lengths", &[Pairs], |_, mut line| {
        line.pairs.iter_mut().for_each(|[o, l]| *l = *o + *l - 1);
        line
    }),
    ("the pairs before the span", &[Pairs], |m, line| Line {
        pairs: m.before.pairs(),
        ..line
    }),
    ("the 128th pair lost", &[Pairs], |_, mut line| {
        line.pairs.truncate(127);
        line
    }),
    ("unused pairs told too", &[Pairs], |_, mut line| {
        line.pairs.resize(128, [0, 0]);
        line
    }),
    ("lit cells painted over", &[Cells], |m, mut line| {
        let number = line.number as u16;
        columns(m).for_each(|i| line.cells[i] = number);
        line
    }),
    ("a span with no column painted", &[Cells], |m, mut line| {
        let number = line.number as u16;
        if m.span.is_empty() && m.span.first < m.before.width() {
            line.cells[usize::from(m.span.first)] = number;
        }
        line
    }),
    ("the last cell not painted", &[Cells], |m, mut line| {
        if let Some(&last) = m.before.unlit_in(m.span).last() {
            line.cells[usize::from(last)] = 0;
        }
        line
    }),
    ("panels from 0", &[Cells], |_, mut line| {
        line.cells
            .iter_mut()
            .for_each(|cell| *cell = cell.saturating_sub(1));
        line
    }),
    ("panels in eight bits", &[Cells], |_, mut line| {
        line.cells.iter_mut().for_each(|cell| *cell %= 256);
        line
    }),
];

pub const WRITES: &[(&str, Write)] = &[
    ("no line where nothing is lit", |line| match line.lit {
        0 => String::new(),
        _ => format!("{line}\n"),
    }),
    ("no line once the row is full", |line| {
        match line.full && line.lit == 0 {
            true => String::new(),
            false => format!("{line}\n"),
        }
    }),
    ("numbered from 0", |line| {
        let number = line.number - 1;
        let line = Line {
            number,
            ..line.clone()
        };
        format!("{line}\n")
    }),
    ("a space at the end", |line| format!("{line} \n")),
    ("lines of one text", |line| line.to_string()),
    ("no words of the map", |line| {
        let text = line.to_string();
        let (before, rest) = text.split_once(" |").unwrap_or_default();
        let (_, cells) = rest.split_once(" |").unwrap_or_default();
        format!("{before} |{cells}\n")
    }),
    ("words without their zeros", |line| {
        format!("{line}\n").replace(" 000", " ")
    }),
    ("words in capitals", |line| {
        format!("{line}\n").to_uppercase()
    }),
];

fn lit(line: Line, lit: usize) -> Line {
    Line { lit, ..line }
}

/// The span's columns in the row.
fn columns(m: &Moment) -> std::ops::Range<usize> {
    let end = usize::from(m.span.last) + 1;
    let end = end.min(m.before.cells.len());
    usize::from(m.span.first).min(end)..end
}

/// How many cells of each stretch it meets the span lights.
fn met<'a>(m: &'a Moment) -> impl Iterator<Item = usize> + 'a {
    let stretches = m.before.stretches().into_iter();
    stretches.filter(|stretch| m.meets(stretch)).map(|stretch| {
        let from = stretch.first.max(m.span.first);
        usize::from(stretch.last.min(m.span.last) - from) + 1
    })
}

/// Without the pairs of some offsets.
fn without(mut line: Line, test: impl Fn(u16) -> bool) -> Line {
    line.pairs.retain(|pair| !test(pair[0]));
    line
}
