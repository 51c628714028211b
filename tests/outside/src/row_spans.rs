//! Sequences of spans for a fresh row, made with an eye on what is unlit.

use crate::random::Random;
use crate::row::{span, Row, Span};

#[derive(Clone)]
pub struct Sequence {
    pub name: String,
    pub width: u16,
    pub spans: Vec<Span>,
}

/// As many spans as are put to a row at once.
const MOST: usize = 4_096;

/// A sequence while it is made, with the row as its spans leave it.
struct Making {
    row: Row,
    spans: Vec<Span>,
}

impl Making {
    fn on(width: u16) -> Making {
        Making {
            row: Row::fresh(width),
            spans: Vec::new(),
        }
    }

    fn lay(&mut self, span: Span) {
        if self.spans.len() < MOST {
            self.spans.push(span);
            self.row.lay(self.spans.len(), span);
        }
    }

    fn lay_columns(&mut self, columns: impl IntoIterator<Item = u16>) {
        let columns = columns.into_iter();
        columns.for_each(|column| self.lay(span(column, column)));
    }

    fn lay_aimed(&mut self, rng: &mut Random, wanted: usize) {
        for _ in 0..wanted {
            let span = rng.pick(AIMS)(&self.row, rng);
            self.lay(span);
        }
    }

    fn named(self, name: String) -> Sequence {
        Sequence {
            name,
            width: self.row.width(),
            spans: self.spans,
        }
    }
}

/// Sequence `number` of the run of `seed`.
pub fn sequence(seed: u64, number: u64) -> Sequence {
    let mut rng = Random::new(seed, number);
    let rng = &mut rng;
    let any = rng.between(1, 256) as u16;
    let few = rng.between(3, 20) as u16;
    let width = match number % 8 {
        4 => rng.pick(&[255, 256, 256, any]),
        _ => rng.pick(&[1, 2, 255, 256, 255, 256, few, few, any, any]),
    };
    let mut making = Making::on(width);
    let name = match number % 8 {
        0..=3 => "aimed spans",
        4 | 5 => {
            making.lay_columns(comb(width, rng));
            "spans on a comb"
        }
        6 => {
            making.lay(span(0, rng.pick(&[width - 1, width, u16::MAX])));
            "spans on a full row"
        }
        _ => {
            let parts = making.row.width() / 3;
            making.lay_columns((0..parts).map(|_| rng.below(width.into()) as u16));
            "spans on scattered columns"
        }
    };
    let wanted = match number % 128 {
        127 => MOST,
        _ => rng.pick(&[1, 3, 10, 30, 60, 150]),
    };
    making.lay_aimed(rng, wanted);
    making.named(format!("{name}, {width} wide"))
}

/// Every other column, from the left, from the right or in any order: on 255 or
/// 256 columns the odd ones leave 128 stretches.
fn comb(width: u16, rng: &mut Random) -> Vec<u16> {
    let from = rng.pick(&[1, 1, 1, 0]);
    let mut columns: Vec<u16> = (from..width).step_by(2).collect();
    match rng.below(3) {
        0 => columns.reverse(),
        1 => rng.shuffle(&mut columns),
        _ => (),
    }
    columns
}

/// A span for the row as it is.
type Aim = fn(&Row, &mut Random) -> Span;

/// Those that light little more often, so that rows last.
const AIMS: &[Aim] = &[
    one_column,
    one_column,
    short,
    short,
    any_columns,
    no_column,
    beyond,
    over_the_width,
    at_an_end,
    at_an_end,
    at_an_end,
    on_lit_columns,
    on_lit_columns,
    whole_or_extreme,
];

fn column(row: &Row, rng: &mut Random) -> u16 {
    rng.below(row.cells.len()) as u16
}

fn one_column(row: &Row, rng: &mut Random) -> Span {
    let column = column(row, rng);
    span(column, column)
}

fn short(row: &Row, rng: &mut Random) -> Span {
    let first = column(row, rng);
    span(first, first + rng.below(4) as u16)
}

fn any_columns(row: &Row, rng: &mut Random) -> Span {
    let ends = [column(row, rng), column(row, rng)];
    let [low, high] = [ends.into_iter().min(), ends.into_iter().max()].map(Option::unwrap);
    // Seldom a long one.
    match rng.once_in(4) {
        true => span(low, high),
        false => span(low, high.min(low + 8)),
    }
}

fn no_column(row: &Row, rng: &mut Random) -> Span {
    let last = column(row, rng);
    let far = last + 1 + rng.below(300) as u16;
    span(rng.pick(&[last + 1, last + 1, far, u16::MAX]), last)
}

fn beyond(row: &Row, rng: &mut Random) -> Span {
    let width = row.width();
    let far = width + rng.below(1_000) as u16;
    let first = rng.pick(&[width, width + 1, far, 256, u16::MAX]).max(width);
    span(first, rng.pick(&[first, first.saturating_add(1), u16::MAX]))
}

fn over_the_width(row: &Row, rng: &mut Random) -> Span {
    let width = row.width();
    let first = column(row, rng);
    // Seldom from far left, as it lights all that is right of it.
    let first = rng.pick(&[first, width - 1, width - 1]);
    let far = width + rng.below(1_000) as u16;
    span(first, rng.pick(&[width, width + 1, far, 32_768, u16::MAX]))
}

/// Its end at a stretch's end, or just before or after it; its start at a
/// stretch's start likewise, or anywhere.
fn at_an_end(row: &Row, rng: &mut Random) -> Span {
    let stretches = row.stretches();
    if stretches.is_empty() {
        return any_columns(row, rng);
    }
    let stretch = rng.pick(&stretches);
    let near = |at: u16, rng: &mut Random| rng.pick(&[at.saturating_sub(1), at, at, at + 1]);
    let last = near(stretch.last, rng);
    let other = rng.pick(&stretches).first.min(stretch.first);
    let (own, far) = (near(stretch.first, rng), near(other, rng));
    let first = rng.pick(&[own, own, last, last, last.saturating_sub(1), far]);
    span(first.min(last), last)
}

fn on_lit_columns(row: &Row, rng: &mut Random) -> Span {
    let is_lit = |column: &u16| row.cells[usize::from(*column)] > 0;
    let lit: Vec<u16> = (0..row.width()).filter(is_lit).collect();
    if lit.is_empty() {
        return one_column(row, rng);
    }
    let first = rng.pick(&lit);
    let run = (first..row.width()).take_while(is_lit).count();
    span(first, first + rng.below(run) as u16)
}

fn whole_or_extreme(row: &Row, rng: &mut Random) -> Span {
    let whole = span(0, row.width() - 1);
    let first = column(row, rng);
    match rng.below(16) {
        0 => whole,
        1 => span(0, u16::MAX),
        2..=5 => span(u16::MAX, u16::MAX),
        6..=8 => span(u16::MAX, 0),
        9..=11 => span(u16::MAX, u16::MAX - 1),
        12..=14 => span(first + 1, first),
        _ => span(first, u16::MAX),
    }
}

/// Sequences that no seed changes: every span on every state of the narrowest
/// rows, combs that are asked everywhere and then filled, and spans from the ends of
/// the map's words to their ends.
pub fn constructed() -> Vec<Sequence> {
    let mut all: Vec<Sequence> = (1..=3).flat_map(narrow).collect();
    all.extend([1, 2, 3, 16, 254, 255, 256].map(asked_and_filled));
    all.extend([100, 256].into_iter().flat_map(by_words));
    all
}

/// The columns of each state lit one by one, then one span.
fn narrow(width: u16) -> Vec<Sequence> {
    let mut all = Vec::new();
    for state in 0..1u16 << width {
        for ends in 0..(width + 1) * (width + 1) {
            let mut making = Making::on(width);
            making.lay_columns((0..width).filter(|column| state >> column & 1 == 1));
            making.lay(span(ends / (width + 1), ends % (width + 1)));
            all.push(making.named(format!("state {state} of {width} columns")));
        }
    }
    all
}

/// A comb of every odd column; then spans that light nothing and end at each of
/// these, with no column and beyond the width between; then the columns left,
/// from the right; then the same spans on the full row.
fn asked_and_filled(width: u16) -> Sequence {
    let mut making = Making::on(width);
    let odd = || (1..width).step_by(2);
    making.lay_columns(odd());
    for _ in 0..2 {
        making.lay_columns(odd());
        for extreme in [span(1, 0), span(u16::MAX, 0), span(width, u16::MAX)] {
            making.lay(extreme);
        }
        making.lay_columns((0..width).step_by(2).rev());
    }
    making.lay(span(0, u16::MAX));
    making.named(format!("a comb of {width} columns, asked and filled"))
}

/// Each span between the ends of the map's words on a fresh row; then one with no
/// column, and one with the column before it and behind it.
fn by_words(width: u16) -> Vec<Sequence> {
    let ends = [0, 1, 63, 64, 65, 127, 128, 129, 191, 192, 193, 254, 255];
    let mut all = Vec::new();
    for (k, &first) in ends.iter().enumerate() {
        for &last in &ends[k..] {
            let mut making = Making::on(width);
            making.lay(span(first, last));
            making.lay(span(last + 1, last));
            making.lay(span(first.saturating_sub(1), last + 1));
            all.push(making.named(format!("{first} to {last} of {width} columns")));
        }
    }
    all
}
