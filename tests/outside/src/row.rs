//! One row while spans are laid on it, and what is told of each span.
//!
//! The row is the set of its unlit columns, those whose cell is 0; its stretches
//! are worked out anew from this set whenever they are asked for.

use std::fmt;

use crate::call::WORDS;
use crate::map::lit_row;
use crate::survey::{unlit_row, used_pairs};

/// From the first column to the last, which may lie beyond the row. Where the
/// last is before the first it has no column.
#[derive(Clone, Copy, Debug, PartialEq, Eq)]
pub struct Span {
    pub first: u16,
    pub last: u16,
}

pub const fn span(first: u16, last: u16) -> Span {
    Span { first, last }
}

impl Span {
    pub fn is_empty(&self) -> bool {
        self.last < self.first
    }

    pub fn has(&self, column: u16) -> bool {
        (self.first..=self.last).contains(&column)
    }
}

/// "pairs of offset and length"
pub type Pair = [u16; 2];

/// The columns of a pair, whose length is not 0.
fn stretch([offset, length]: Pair) -> Span {
    span(offset, offset + (length - 1))
}

#[derive(Clone)]
pub struct Row {
    pub cells: Vec<u16>,
}

impl Row {
    pub fn fresh(width: u16) -> Row {
        Row {
            cells: vec![0; usize::from(width)],
        }
    }

    pub fn width(&self) -> u16 {
        self.cells.len() as u16
    }

    pub fn pairs(&self) -> Vec<Pair> {
        let row = unlit_row(&self.cells);
        let used = used_pairs(&row, 0).chunks(2);
        used.map(|pair| [pair[0], pair[1]]).collect()
    }

    pub fn stretches(&self) -> Vec<Span> {
        self.pairs().into_iter().map(stretch).collect()
    }

    /// The span's columns in the row that are not lit yet.
    pub fn unlit_in(&self, span: Span) -> Vec<u16> {
        let unlit = |&column: &u16| span.has(column) && self.cells[usize::from(column)] == 0;
        (0..self.width()).filter(unlit).collect()
    }

    /// "Laying a span looks at the stretches from the row's first up to and
    /// including the first that ends at or after the span's end, or at all if
    /// none does." A span with no column is not laid.
    pub fn looked(&self, span: Span) -> usize {
        match span.is_empty() {
            true => 0,
            false => up_to(&self.stretches(), |stretch| stretch.last >= span.last),
        }
    }

    /// Lights the span's columns for the panel of its own number.
    pub fn lay(&mut self, number: usize, span: Span) -> Line {
        let looked = self.looked(span);
        let newly = self.unlit_in(span);
        for &column in &newly {
            self.cells[usize::from(column)] = number as u16;
        }
        let pairs = self.pairs();
        Line {
            number,
            looked,
            lit: newly.len(),
            full: pairs.is_empty(),
            pairs,
            map: lit_row(&self.cells),
            cells: self.cells.clone(),
        }
    }
}

/// How many there are up to and including the first that passes a test, or at
/// all if none does.
pub fn up_to(stretches: &[Span], test: impl Fn(&Span) -> bool) -> usize {
    let first = stretches.iter().position(test);
    first.map_or(stretches.len(), |place| place + 1)
}

/// What the spans of a fresh row tell, laid in order.
pub fn laid(width: u16, spans: &[Span]) -> Vec<Line> {
    let mut row = Row::fresh(width);
    let numbered = (1..).zip(spans);
    numbered.map(|(n, &span)| row.lay(n, span)).collect()
}

/// What is told of a span: its number, how many stretches it looked at, how many
/// cells it newly lit, whether no column is unlit any more, and the row after it by
/// its pairs, its words of the map and its cells.
#[derive(Clone, Debug, PartialEq, Eq)]
pub struct Line {
    pub number: usize,
    pub looked: usize,
    pub lit: usize,
    pub full: bool,
    pub pairs: Vec<Pair>,
    pub map: [u64; WORDS],
    pub cells: Vec<u16>,
}

impl fmt::Display for Line {
    fn fmt(&self, f: &mut fmt::Formatter) -> fmt::Result {
        let Line { looked, lit, .. } = self;
        write!(f, "{} {looked} {lit} {}:", self.number, u8::from(self.full))?;
        for [offset, length] in &self.pairs {
            write!(f, " {offset} {length}")?;
        }
        write!(f, " |")?;
        for word in &self.map {
            write!(f, " {word:016x}")?;
        }
        write!(f, " |")?;
        self.cells.iter().try_for_each(|cell| write!(f, " {cell}"))
    }
}

impl Line {
    /// The line of this text; None where it is not just in the form above.
    pub fn read(text: &str) -> Option<Line> {
        let (head, rest) = text.split_once(':')?;
        let (pairs, rest) = rest.split_once(" |")?;
        let (map, cells) = rest.split_once(" |")?;
        let [number, looked, lit, full] = numbers(head)?.try_into().ok()?;
        let pairs: Vec<u16> = numbers(pairs)?;
        let line = Line {
            number,
            looked,
            lit,
            full: full == 1,
            pairs: pairs.chunks_exact(2).map(|two| [two[0], two[1]]).collect(),
            map: words(map)?,
            cells: numbers(cells)?,
        };
        (line.to_string() == text).then_some(line)
    }
}

/// The row's words, in hex and parted by spaces.
fn words(text: &str) -> Option<[u64; WORDS]> {
    let words = text.split_whitespace();
    let words = words.map(|word| u64::from_str_radix(word, 16).ok());
    words.collect::<Option<Vec<u64>>>()?.try_into().ok()
}

/// Numbers parted by spaces.
pub fn numbers<T: std::str::FromStr>(text: &str) -> Option<Vec<T>> {
    let words = text.split_whitespace();
    words.map(|word| word.parse().ok()).collect()
}
