//! Rows with what is due known beforehand: spans laid in order, the bounds on what
//! they look at, the maker's spans; and the blocks of stored cases that tell them.

use crate::block::{Block, Reading};
use crate::map::lit_row;
use crate::row::{span, Line, Pair, Row, Span};
use crate::row_compare::{check_bounds, check_laid, check_worst, Bounds, RowDifference};
use crate::row_programs::Rows;
use crate::worst::WorstSpan;

/// Spans, and the line due for each.
#[derive(Clone)]
pub struct Laid {
    pub name: String,
    pub width: u16,
    pub spans: Vec<Span>,
    pub due: Vec<Line>,
}

/// Numbers put to the maker, and what is due for each.
pub struct Made {
    pub name: String,
    pub numbers: Vec<u64>,
    pub due: Vec<WorstSpan>,
}

pub enum RowCase {
    Spans(Laid),
    Bounds(Bounds),
    Made(Made),
}

impl RowCase {
    pub fn name(&self) -> &str {
        match self {
            RowCase::Spans(laid) => &laid.name,
            RowCase::Bounds(bounds) => &bounds.name,
            RowCase::Made(made) => &made.name,
        }
    }

    /// How many spans are told of.
    pub fn spans(&self) -> usize {
        match self {
            RowCase::Spans(laid) => laid.spans.len(),
            RowCase::Bounds(_) | RowCase::Made(_) => 0,
        }
    }

    pub fn check(&self, rows: &dyn Rows) -> Vec<RowDifference> {
        match self {
            RowCase::Spans(laid) => check_laid(rows, laid.width, &laid.spans, &laid.due),
            RowCase::Bounds(bounds) => check_bounds(rows, bounds),
            RowCase::Made(made) => check_worst(rows, &made.numbers, &made.due),
        }
    }
}

/// A program that tells just what is due here, whatever it is asked.
impl Rows for Laid {
    fn laid(&self, _: u16, _: &[Span]) -> String {
        self.due.iter().map(|line| format!("{line}\n")).collect()
    }

    fn worst(&self, _: &[u64]) -> String {
        String::new()
    }
}

/// A span, how many stretches it looks at, how many cells it newly lights, and
/// the row's used pairs after it.
pub type Told = (Span, usize, usize, Vec<Pair>);

/// The lines due for what is told of spans in order. What a line holds besides
/// follows from the pairs before and after: a column that is unlit no more has
/// the panel of the span's number, and is lit in the map.
pub fn laid_as_told(name: String, width: u16, told: Vec<Told>) -> Laid {
    let mut row = Row::fresh(width);
    let mut due = Vec::new();
    let spans = told.iter().map(|one| one.0).collect();
    for (number, (_, looked, lit, pairs)) in (1..).zip(told) {
        let mut unlit = vec![false; usize::from(width)];
        for pair in &pairs {
            let [offset, length] = pair.map(usize::from);
            unlit[offset..offset + length].fill(true);
        }
        for (cell, unlit) in row.cells.iter_mut().zip(unlit) {
            match (unlit, *cell) {
                (true, _) => *cell = 0,
                (false, 0) => *cell = number as u16,
                (false, _) => (),
            }
        }
        due.push(Line {
            number,
            looked,
            lit,
            full: pairs.is_empty(),
            pairs,
            map: lit_row(&row.cells),
            cells: row.cells.clone(),
        });
    }
    Laid {
        name,
        width,
        spans,
        due,
    }
}

/// What a block says, by its kind.
pub fn row_case(block: &mut Block) -> Reading<RowCase> {
    let about = block.text("about")?;
    let name = format!("{} {} ({about})", block.kind, block.number);
    Ok(match block.kind {
        "bounds" => RowCase::Bounds(Bounds {
            name,
            bounds: counted_up(block, "bound")?,
            reaches: counted_up(block, "reach")?,
        }),
        _ => RowCase::Spans(spans(block, name)?),
    })
}

/// The bounds and the sums are told of each number from 0 to this one.
const LAST: u64 = 300;

fn counted_up(block: &mut Block, key: &str) -> Reading<Vec<(u64, u64)>> {
    let told = |k: u64| match block.numbers(key)? {
        [own, number] if own == k => Ok((k, number)),
        _ => Err(block.wrong(&format!("not the number of {key} {k}"))),
    };
    (0..=LAST).map(told).collect()
}

/// The row's width, then a line for each span in order.
fn spans(block: &mut Block, name: String) -> Reading<Laid> {
    let width = block.number("width")?;
    let mut told = vec![span_line(block, width)?];
    while block.is_next("span") {
        told.push(span_line(block, width)?);
    }
    Ok(laid_as_told(name, width, told))
}

fn span_line(block: &mut Block, width: u16) -> Reading<Told> {
    let words = block.words("span")?;
    let [first, last, "looked", looked, "lit", lit, "pairs", pairs @ ..] = &words[..] else {
        return Err(block.wrong("not what is told of a span"));
    };
    let pairs = block.pairs::<u16>(pairs, ':')?;
    // "sorted by offset, never touching"
    let mut from = 0;
    for &(offset, length) in &pairs {
        let end = u32::from(offset) + u32::from(length);
        if u32::from(offset) < from || length == 0 || end > u32::from(width) {
            return Err(block.wrong("a pair that cannot stand here"));
        }
        from = end + 1;
    }
    Ok((
        span(block.value(first)?, block.value(last)?),
        block.value(looked)?,
        block.value(lit)?,
        pairs.into_iter().map(|(o, l)| [o, l]).collect(),
    ))
}
