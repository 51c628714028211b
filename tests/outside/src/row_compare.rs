//! What programs tell of spans and of the worst ones, against what is due.

use crate::row::{Line, Span};
use crate::row_programs::Rows;
use crate::worst::{bound, counted, WorstSpan, WIDTH};

#[derive(Clone, Copy, Debug, PartialEq, Eq, PartialOrd, Ord)]
pub enum RowDifference {
    /// A line is missing, or one too many, or not in its form or place.
    Form,
    Looked,
    Lit,
    Full,
    Pairs,
    /// F-8: the row's four words.
    Map,
    Cells,
    /// "The k-th span of a fresh row looks at no more than the smaller of k and
    /// 128", whatever is due.
    Bound,
    /// Another span than that of the maker.
    Maker,
    /// The sum told of the maker's spans is not that of the bounds.
    Reach,
    /// The maker's spans, laid, do not look at as many as their bounds.
    Worst,
}

use RowDifference::*;

fn each_once(mut found: Vec<RowDifference>) -> Vec<RowDifference> {
    found.sort();
    found.dedup();
    found
}

/// The lines of a text by one reading; None where one is unreadable or the last
/// has no end.
fn lines<T>(text: &str, read: fn(&str) -> Option<T>) -> Option<Vec<T>> {
    match text.strip_suffix('\n') {
        Some(lines) => lines.split('\n').map(read).collect(),
        None => text.is_empty().then(Vec::new),
    }
}

/// Spans on a fresh row, held to the lines due.
pub fn check_laid(rows: &dyn Rows, width: u16, spans: &[Span], due: &[Line]) -> Vec<RowDifference> {
    let Some(said) = lines(&rows.laid(width, spans), Line::read) else {
        return vec![Form];
    };
    let mut found = Vec::new();
    if said.len() != due.len() {
        found.push(Form);
    }
    for ((k, said), due) in (1..).zip(&said).zip(due) {
        found.extend(apart(said, due));
        if said.looked as u64 > bound(k) {
            found.push(Bound);
        }
    }
    each_once(found)
}

fn apart(said: &Line, due: &Line) -> Vec<RowDifference> {
    let differs = [
        (said.number != due.number, Form),
        (said.looked != due.looked, Looked),
        (said.lit != due.lit, Lit),
        (said.full != due.full, Full),
        (said.pairs != due.pairs, Pairs),
        (said.map != due.map, Map),
        (said.cells != due.cells, Cells),
    ];
    let found = differs.into_iter().filter(|(differs, _)| *differs);
    found.map(|(_, which)| which).collect()
}

/// The first line that is not the one due, for the reader: what is due and what
/// was said.
pub fn first_apart(said: &str, due: &[Line]) -> Option<(String, String)> {
    let mut due = due.iter().map(Line::to_string);
    let mut said = said.lines().map(str::to_string);
    loop {
        match (due.next(), said.next()) {
            (None, None) => return None,
            (one, other) if one == other => (),
            (one, other) => return Some((one.unwrap_or_default(), other.unwrap_or_default())),
        }
    }
}

/// The maker asked for some numbers, held to the spans and the sums due.
pub fn check_worst(rows: &dyn Rows, numbers: &[u64], due: &[WorstSpan]) -> Vec<RowDifference> {
    let Some(said) = worst(rows, numbers) else {
        return vec![Form];
    };
    let mut found = Vec::new();
    for (said, due) in said.iter().zip(due) {
        if said.span != due.span {
            found.push(Maker);
        }
        if said.reach.is_some() != due.reach.is_some() {
            found.push(Form);
        } else if said.reach != due.reach {
            found.push(Reach);
        }
    }
    each_once(found)
}

/// What is told of each number; None where there is not a line for each.
fn worst(rows: &dyn Rows, numbers: &[u64]) -> Option<Vec<WorstSpan>> {
    let said = lines(&rows.worst(numbers), WorstSpan::read)?;
    (said.len() == numbers.len()).then_some(said)
}

/// How many stretches each span looks at by what is told; None where there is not
/// a line for each.
fn looks(rows: &dyn Rows, spans: &[Span]) -> Option<Vec<u64>> {
    let said = lines(&rows.laid(WIDTH, spans), Line::read)?;
    let looks: Vec<u64> = said.iter().map(|line| line.looked as u64).collect();
    (looks.len() == spans.len()).then_some(looks)
}

/// Bounds and sums, each with its number: `bound` and `reach` of a stored case.
#[derive(Clone)]
pub struct Bounds {
    pub name: String,
    pub bounds: Vec<(u64, u64)>,
    pub reaches: Vec<(u64, u64)>,
}

/// The maker's spans in order, by what is told of them: the sums as told, what
/// each span looks at when all are laid, and what the one of number 0 does.
struct Told {
    reaches: Vec<u64>,
    looks: Vec<u64>,
    of_zero: u64,
}

impl Told {
    fn up_to(rows: &dyn Rows, last: u64) -> Option<Told> {
        let numbers: Vec<u64> = (0..=last).collect();
        let said = worst(rows, &numbers)?;
        let spans: Vec<Span> = said.iter().map(|one| one.span).collect();
        let reaches = said.iter().map(|one| one.reach);
        Some(Told {
            reaches: reaches.collect::<Option<_>>()?,
            looks: looks(rows, &spans[1..])?,
            of_zero: looks(rows, &spans[..1])?[0],
        })
    }

    /// What the k-th span looks at, by the sums and by laying.
    fn looked(&self, k: u64) -> [u64; 2] {
        let at = counted(k) as usize;
        let by_sums = self.reaches[at].wrapping_sub(self.reaches[at - 1]);
        let by_laying = match k {
            0 => self.of_zero,
            _ => self.looks[at - 1],
        };
        [by_sums, by_laying]
    }
}

/// The k-th span looks at just its bound after those before it, and the first n
/// reach the sums: by the sums told, and by laying the spans told.
pub fn check_bounds(rows: &dyn Rows, due: &Bounds) -> Vec<RowDifference> {
    let all = due.bounds.iter().chain(&due.reaches);
    let last = all.map(|told| told.0).max().unwrap_or(0);
    // One more than none, as the 0th span is taken as the first.
    let Some(told) = Told::up_to(rows, last.max(1)) else {
        return vec![Form];
    };
    let mut found = Vec::new();
    let mut hold = |said: [u64; 2], due: u64| {
        let which = said.into_iter().zip([Reach, Worst]);
        found.extend(which.filter(|(said, _)| *said != due).map(|(_, d)| d));
    };
    for &(k, bound) in &due.bounds {
        hold(told.looked(k), bound);
    }
    for &(n, sum) in &due.reaches {
        let at = n as usize;
        hold([told.reaches[at], told.looks[..at].iter().sum()], sum);
    }
    each_once(found)
}
