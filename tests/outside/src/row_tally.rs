//! What came of a run of sequences: which kinds of spans were tried, and what
//! differed.

use std::collections::BTreeMap;

use crate::row::{laid, Row, Span};
use crate::row_compare::{check_laid, RowDifference};
use crate::row_programs::Rows;
use crate::row_spans::Sequence;
use crate::worst::bound;

/// A span about to be laid, the k-th, with the stretches as they are.
pub struct Tried<'a> {
    row: &'a Row,
    stretches: Vec<Span>,
    span: Span,
    k: usize,
}

type Kind = (&'static str, fn(&Tried) -> bool);

/// Kinds of spans that a run claims to try, each with its test.
const KINDS: &[Kind] = &[
    ("have no column", |t| t.span.is_empty()),
    ("have no column, on a row with stretches", |t| {
        t.span.is_empty() && !t.stretches.is_empty()
    }),
    ("lie beyond the width", |t| {
        !t.span.is_empty() && t.span.first >= t.row.width()
    }),
    ("end beyond the width", |t| {
        t.is_begun() && t.span.last >= t.row.width()
    }),
    ("lie on lit columns, on a row with stretches", |t| {
        t.is_inside() && !t.stretches.is_empty() && t.row.unlit_in(t.span).is_empty()
    }),
    ("end with a stretch", |t| t.ends(0)),
    ("end just before a stretch's end", |t| t.ends(-1)),
    ("end just after a stretch's end", |t| t.ends(1)),
    ("are the whole row", |t| {
        t.span.first == 0 && t.span.last == t.row.width() - 1
    }),
    ("fill the row", |t| {
        let newly = t.row.unlit_in(t.span).len();
        newly > 0 && newly == t.row.cells.iter().filter(|&&cell| cell == 0).count()
    }),
    ("find the row full", |t| t.stretches.is_empty()),
    ("find 128 stretches", |t| t.stretches.len() == 128),
    ("look at 128", |t| t.row.looked(t.span) == 128),
    ("look at all, as none ends so late", |t| {
        !t.stretches.is_empty()
            && !t.span.is_empty()
            && t.stretches.iter().all(|s| s.last < t.span.last)
    }),
    ("look at their bound, which is above 1", |t| {
        t.k > 1 && t.row.looked(t.span) as u64 == bound(t.k as u64)
    }),
    ("come after 128 others", |t| t.k > 128),
    ("go from one word of the map to the next", |t| {
        t.is_inside() && t.span.first / 64 < t.span.last / 64
    }),
    ("cover a whole word of the map", |t| {
        t.is_inside() && t.span.first.div_ceil(64) < (t.span.last + 1) / 64
    }),
    ("begin a word of the map", |t| {
        t.is_inside() && t.span.first % 64 == 0 && t.span.first > 0
    }),
    ("end a word of the map", |t| {
        t.is_inside() && t.span.last % 64 == 63 && t.span.last < 255
    }),
    ("end in a word of the map, but beyond the width", |t| {
        let end = t.row.width().next_multiple_of(64);
        t.is_begun() && (t.row.width()..end).contains(&t.span.last)
    }),
    ("begin at column 65,535", |t| t.span.first == u16::MAX),
    ("end at column 65,535", |t| t.span.last == u16::MAX),
    ("are on a row 1 wide", |t| t.row.width() == 1),
    ("are on a row 2 wide", |t| t.row.width() == 2),
    ("are on a row 255 wide", |t| t.row.width() == 255),
    ("are on a row 256 wide", |t| t.row.width() == 256),
    ("meet a stretch in position 1", |t| t.meets_in(1)),
    ("meet a stretch in position 2", |t| t.meets_in(2)),
    ("meet a stretch in position 3", |t| t.meets_in(3)),
    ("meet a stretch in position 4", |t| t.meets_in(4)),
    ("meet a stretch in position 5", |t| t.meets_in(5)),
    ("meet a stretch in position 6", |t| t.meets_in(6)),
    ("meet a stretch in position 7", |t| t.meets_in(7)),
    ("meet a stretch in position 8", |t| t.meets_in(8)),
];

impl Tried<'_> {
    fn is_begun(&self) -> bool {
        !self.span.is_empty() && self.span.first < self.row.width()
    }

    fn is_inside(&self) -> bool {
        self.is_begun() && self.span.last < self.row.width()
    }

    /// Does a stretch end so many columns before the span's end?
    fn ends(&self, after: i32) -> bool {
        let last = i32::from(self.span.last) - after;
        let mut ends = self.stretches.iter().map(|s| i32::from(s.last));
        self.is_begun() && ends.any(|end| end == last)
    }

    fn meets_in(&self, position: u32) -> bool {
        let mut stretches = self.stretches.iter();
        !self.span.is_empty() && stretches.any(|&s| positioned(self.span, s) == position)
    }
}

/// "1 J < Min; 8 I > Max; with I ≤ Min: 2 J < Max, 4 J = Max, 6 J > Max; with
/// I > Min: 3 J < Max, 5 J = Max, 7 J > Max."
fn positioned(span: Span, stretch: Span) -> u32 {
    if span.last < stretch.first {
        return 1;
    }
    if span.first > stretch.last {
        return 8;
    }
    let ends = 2 * (span.last.cmp(&stretch.last) as i32 + 1) as u32;
    2 + ends + u32::from(span.first > stretch.first)
}

#[derive(Default)]
pub struct RowTally {
    pub sequences: u64,
    pub spans: u64,
    pub failed: u64,
    kinds: BTreeMap<&'static str, u64>,
    pub differences: BTreeMap<RowDifference, u64>,
}

impl RowTally {
    /// Puts one sequence to the programs; gives what differs.
    pub fn put(&mut self, rows: &dyn Rows, made: &Sequence) -> Vec<RowDifference> {
        let Sequence { width, spans, .. } = made;
        self.sequences += 1;
        self.spans += spans.len() as u64;
        self.add_kinds(made);
        let found = check_laid(rows, *width, spans, &laid(*width, spans));
        self.add(&found);
        found
    }

    pub fn add(&mut self, found: &[RowDifference]) {
        for &difference in found {
            *self.differences.entry(difference).or_default() += 1;
        }
        self.failed += u64::from(!found.is_empty());
    }

    fn add_kinds(&mut self, made: &Sequence) {
        let mut row = Row::fresh(made.width);
        for (k, &span) in (1..).zip(&made.spans) {
            let tried = Tried {
                stretches: row.stretches(),
                row: &row,
                span,
                k,
            };
            for (name, _) in KINDS.iter().filter(|(_, test)| test(&tried)) {
                *self.kinds.entry(name).or_default() += 1;
            }
            row.lay(k, span);
        }
    }

    /// Each kind with how often it was tried.
    pub fn kinds(&self) -> impl Iterator<Item = (u64, &'static str)> + '_ {
        let times = |name| self.kinds.get(name).copied().unwrap_or(0);
        KINDS.iter().map(move |&(name, _)| (times(name), name))
    }

    pub fn never_tried(&self) -> Vec<&'static str> {
        let never = self.kinds().filter(|(times, _)| *times == 0);
        never.map(|(_, name)| name).collect()
    }
}
