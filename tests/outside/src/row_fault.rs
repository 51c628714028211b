//! The two row programs made of the model, right or with one fault each.

use crate::row::{Line, Row, Span};
use crate::row_compare::RowDifference;
use crate::row_programs::Rows;
use crate::worst::{made, WorstSpan, LAID, WIDTH};
use crate::wrong_looks::LOOKS;
use crate::wrong_makers::{MAKERS, SUMS};
use crate::wrong_row_maps::MAPS;
use crate::wrong_rows::{LINES, WRITES};

/// A span that was laid: the row before it and after it.
pub struct Moment<'a> {
    pub before: &'a Row,
    pub span: Span,
    pub after: &'a Row,
}

/// What is told of a span, given what should be told.
pub type Tell = fn(&Moment, Line) -> Line;
/// How many stretches a span is said to look at, given the right line.
pub type Look = fn(&Moment, &Line) -> usize;
/// How a line is written.
pub type Write = fn(&Line) -> String;
pub type Maker = fn(u64) -> Span;
/// What the first k spans are said to look at together, given what each does.
pub type Sum = fn(&[u64], usize) -> u64;

pub struct Laying {
    pub name: &'static str,
    /// The differences that must show.
    pub shows: &'static [RowDifference],
    /// Is the maker at fault, or its sum? Then no others may show.
    pub of_maker: bool,
    look: Look,
    tell: Tell,
    write: Write,
    maker: Maker,
    sum: Sum,
}

impl Laying {
    /// No fault.
    pub fn right() -> Laying {
        Laying {
            name: "none",
            shows: &[],
            of_maker: false,
            look: |_, line| line.looked,
            tell: |_, line| line,
            write: |line| format!("{line}\n"),
            maker: made,
            sum: |looks, k| looks[..k].iter().sum(),
        }
    }

    fn named(name: &'static str, shows: &'static [RowDifference]) -> Laying {
        Laying {
            name,
            shows,
            ..Laying::right()
        }
    }

    pub fn all() -> Vec<Laying> {
        let looks = LOOKS.iter().map(|&(name, look)| Laying {
            look,
            ..Laying::named(name, &[RowDifference::Looked])
        });
        let tells = LINES.iter().map(|&(name, shows, tell)| Laying {
            tell,
            ..Laying::named(name, shows)
        });
        let maps = MAPS.iter().map(|&(name, tell)| Laying {
            tell,
            ..Laying::named(name, &[RowDifference::Map])
        });
        let writes = WRITES.iter().map(|&(name, write)| Laying {
            write,
            ..Laying::named(name, &[RowDifference::Form])
        });
        let makers = MAKERS.iter().map(|&(name, shows, maker)| Laying {
            maker,
            of_maker: true,
            ..Laying::named(name, shows)
        });
        let sums = SUMS.iter().map(|&(name, sum)| Laying {
            sum,
            of_maker: true,
            ..Laying::named(name, &[RowDifference::Reach])
        });
        let lines = looks.chain(tells).chain(maps).chain(writes);
        lines.chain(makers).chain(sums).collect()
    }

    fn lines<'a>(&'a self, width: u16, spans: &'a [Span]) -> impl Iterator<Item = Line> + 'a {
        let mut row = Row::fresh(width);
        (1..).zip(spans).map(move |(number, &span)| {
            let before = row.clone();
            let line = row.lay(number, span);
            let moment = Moment {
                before: &before,
                span,
                after: &row,
            };
            let looked = (self.look)(&moment, &line);
            (self.tell)(&moment, Line { looked, ..line })
        })
    }

    /// What each of the maker's spans up to this number looks at.
    fn looks(&self, last: u64) -> Vec<u64> {
        let spans: Vec<Span> = (1..=last).map(self.maker).collect();
        let lines = self.lines(WIDTH, &spans);
        lines.map(|line| line.looked as u64).collect()
    }
}

impl Rows for Laying {
    fn laid(&self, width: u16, spans: &[Span]) -> String {
        match width <= WIDTH {
            true => self.lines(width, spans).map(|l| (self.write)(&l)).collect(),
            false => String::new(),
        }
    }

    fn worst(&self, numbers: &[u64]) -> String {
        let laid = numbers.iter().filter(|&&k| k <= LAID);
        // One more, for a sum that goes too far.
        let looks = self.looks(laid.max().map_or(0, |most| most + 1));
        let told = |&k: &u64| WorstSpan {
            span: (self.maker)(k),
            reach: (k <= LAID).then(|| (self.sum)(&looks, k as usize)),
        };
        numbers.iter().map(|k| format!("{}\n", told(k))).collect()
    }
}
