//! Rows without the programs: the stations, the stored cases and the sequences on
//! the model, and the faults that each of them sees.

use crate::random::Random;
use crate::row::{laid, Span};
use crate::row_cases::{Made, RowCase};
use crate::row_compare::{Bounds, RowDifference};
use crate::row_fault::{Laying, Maker};
use crate::row_programs::Rows;
use crate::row_spans::{constructed, sequence, Sequence};
use crate::row_tally::RowTally;
use crate::row_trials::{hold_rows, row_suites};
use crate::worst::{bound, counted, sum_of_bounds, WorstSpan, LAID, WIDTH};
use crate::wrong_makers::{columns_modulo_256, even_columns, from_the_right};

/// Numbers whose spans are too many to be laid, at the ends of what machines
/// count in.
const GREAT: &[u64] = &[
    LAID + 1,
    LAID + 2,
    1 << 31,
    (1 << 31) + 1,
    (1 << 32) - 1,
    1 << 32,
    (1 << 32) + 1,
    (1 << 63) - 1,
    1 << 63,
    (1 << 63) + 1,
    u64::MAX - 1,
    u64::MAX,
];

/// The maker asked for the first numbers, for great ones and for some of any size.
fn numbers(seed: u64) -> RowCase {
    let mut rng = Random::new(seed, 0);
    let any = (0..200).map(|_| {
        let number = rng.next() >> rng.below(64);
        match number <= LAID {
            true => number % 1_000,
            false => number,
        }
    });
    let numbers: Vec<u64> = (0..=300).chain(GREAT.iter().copied()).chain(any).collect();
    asked(format!("{} numbers of the maker", numbers.len()), numbers)
}

fn asked(name: String, numbers: Vec<u64>) -> RowCase {
    RowCase::Made(Made {
        name,
        due: numbers.iter().map(|&k| WorstSpan::of(k)).collect(),
        numbers,
    })
}

/// As many spans as are laid at all; this takes long, and faults are spared it.
fn most_laid() -> RowCase {
    asked("the longest sums".to_string(), vec![4_096, LAID - 1, LAID])
}

/// The maker's first spans, each held to its bound and all to the sums.
fn bounds() -> RowCase {
    let last = 1_000;
    RowCase::Bounds(Bounds {
        name: format!("the maker's first {last} spans"),
        bounds: (0..=last).map(|k| (k, bound(counted(k)))).collect(),
        reaches: (0..=last).map(|n| (n, sum_of_bounds(n))).collect(),
    })
}

/// Faults that the stored cases do not see. No span of these has no column, lies
/// or ends beyond the width, lights 256 cells or is the 256th; the maker is asked
/// for 300 spans, and those that reach the bounds as well are as good.
const UNSTORED: &[&str] = &[
    "a span with no column counted by its end",
    "a span with no column looks at one",
    "none beyond the width",
    "none where the span ends beyond the width",
    "the end in eight bits",
    "the end as a signed number",
    "lit counted beyond the width",
    "lit in eight bits",
    "a span with no column painted",
    "panels in eight bits",
    "map: lit beyond the width",
    "map: a word lit to its end beyond the width",
    "map: a span with no column lit",
    "map: the first column of a span with no column lit",
    "k in 16 bits",
    "k in 32 bits",
    "2k in 64 bits",
    "k of 0 as 0",
    "no further than column 253",
    "beyond the row after 128",
    "in 16 bits",
];

/// Everything of rows that needs no program; gives how many fail.
pub fn rows_hold(seed: u64, wanted: u64) -> usize {
    let any = |number| sequence(seed, number);
    let all = [constructed(), (0..wanted).map(any).collect()];
    let right = Laying::right();
    let failed = hold_rows(&right) + hold_maker(&right, seed) + wrong_makers_told();
    let unsound: usize = all.iter().map(|sequences| sound(sequences)).sum();
    failed + unsound + faults(seed, &all.concat())
}

/// The maker's numbers, sums and bounds; gives how many of these fail.
pub fn hold_maker(rows: &dyn Rows, seed: u64) -> usize {
    let cases = [numbers(seed), bounds(), most_laid()].into_iter();
    let wrong = cases.filter(|case| {
        let found = case.check(rows);
        println!("rows: {}, differences: {found:?}", case.name());
        !found.is_empty()
    });
    wrong.count()
}

/// No fault, no difference, and every kind of span came up.
fn sound(sequences: &[Sequence]) -> usize {
    let mut tally = RowTally::default();
    for made in sequences {
        tally.put(&Laying::right(), made);
    }
    let never = tally.never_tried();
    println!(
        "rows, no fault: {} sequences, {} spans, {} differences, never tried: {never:?}",
        tally.sequences, tally.spans, tally.failed
    );
    tally.failed as usize + never.len()
}

/// What the spans of makers at fault look at together, worked out by hand: the
/// faults are what their names say.
fn wrong_makers_told() -> usize {
    let told: [(&str, Maker, u64, u64); 3] = [
        ("even columns", even_columns, 127, 8_002),
        ("columns modulo 256", columns_modulo_256, 129, 8_258),
        ("from the right", from_the_right, 127, 127),
    ];
    let wrong = told.into_iter().filter(|&(name, maker, n, sum)| {
        let spans: Vec<Span> = (1..=n).map(maker).collect();
        let lines = laid(WIDTH, &spans);
        let reach: usize = lines.iter().map(|line| line.looked).sum();
        let held = reach as u64 == sum;
        println!("{} {name}: {reach}", if held { "holds" } else { "FAILS" });
        !held
    });
    wrong.count()
}

/// Every fault is found by the sequences or the maker's numbers, and as it must
/// show; by the stored cases where these can see it.
fn faults(seed: u64, sequences: &[Sequence]) -> usize {
    let Ok([(_, stations), (_, stored)]) = row_suites() else {
        return 1;
    };
    let numbers = numbers(seed);
    let (mut tried, mut by_stored, mut by_stations, mut missed) = (0, 0, 0, 0);
    for fault in Laying::all() {
        let run = found_by_run(&fault, sequences, &numbers);
        let at_stations = is_seen(&fault, &stations);
        let seen = is_seen(&fault, &stored);
        tried += 1;
        by_stored += usize::from(seen);
        by_stations += usize::from(at_stations);
        let right = run.is_some() && seen != UNSTORED.contains(&fault.name);
        missed += usize::from(!right);
        println!(
            "{} {:?} by {run:?}, stations {at_stations}, stored {seen}: {}",
            if right { "found" } else { "MISSED" },
            fault.shows,
            fault.name
        );
    }
    println!(
        "rows: {tried} faults, {by_stored} found by stored cases, {by_stations} by stations, \
         {missed} missed"
    );
    missed + usize::from(tried == 0)
}

/// By which sequence the fault has shown as it must; those of the maker by its
/// numbers and bounds, where nothing else may show.
fn found_by_run(fault: &Laying, sequences: &[Sequence], numbers: &RowCase) -> Option<usize> {
    if fault.of_maker {
        let mut found = numbers.check(fault);
        found.extend(bounds().check(fault));
        found.sort();
        found.dedup();
        return (found == fault.shows).then_some(0);
    }
    let mut tally = RowTally::default();
    (0..sequences.len()).find(|&k| {
        tally.put(fault, &sequences[k]);
        let seen = |shown: &RowDifference| tally.differences.contains_key(shown);
        fault.shows.iter().all(seen)
    })
}

/// Is the fault seen by one of these cases?
fn is_seen(fault: &Laying, cases: &[RowCase]) -> bool {
    cases.iter().any(|case| !case.check(fault).is_empty())
}
