//! The programs of rows set against the stations, the stored cases and the model,
//! sequence by sequence.
//!
//!     laying [--sequences N] [--seed S] [--only K]
//!            --rows-laid PROGRAM --rows-worst PROGRAM
//!
//! `--only` runs sequence K of the seed alone. Besides the N sequences of a seed
//! there are those that no seed changes. A run of 100 sequences or more in which a
//! kind of span was never tried fails, as does one with a difference.

use std::env;
use std::process::exit;

use outside::row::laid;
use outside::row_check::hold_maker;
use outside::row_compare::{first_apart, RowDifference};
use outside::row_programs::{Programs, Rows};
use outside::row_spans::{constructed, sequence, Sequence};
use outside::row_tally::RowTally;
use outside::row_trials::hold_rows;

struct Options {
    sequences: u64,
    seed: u64,
    only: Option<u64>,
    programs: Programs,
}

fn options() -> Options {
    let (mut laid, mut worst) = (None, None);
    let (mut sequences, mut seed, mut only) = (400, 1, None);
    let mut words = env::args().skip(1);
    while let Some(word) = words.next() {
        let value = words.next().unwrap_or_else(|| usage(&word));
        match word.as_str() {
            "--sequences" => sequences = number(&value),
            "--seed" => seed = number(&value),
            "--only" => only = Some(number(&value)),
            "--rows-laid" => laid = Some(value),
            "--rows-worst" => worst = Some(value),
            _ => usage(&word),
        }
    }
    Options {
        sequences,
        seed,
        only,
        programs: Programs {
            laid: laid.unwrap_or_else(|| usage("no --rows-laid")),
            worst: worst.unwrap_or_else(|| usage("no --rows-worst")),
        },
    }
}

fn usage(word: &str) -> ! {
    eprintln!("laying: not understood: {word}");
    exit(2)
}

fn number(word: &str) -> u64 {
    word.parse().unwrap_or_else(|_| usage(word))
}

fn main() {
    let options = options();
    let programs = &options.programs;
    let seeded = format!("seed {}", options.seed);
    let any = |number| sequence(options.seed, number);
    if let Some(k) = options.only {
        exit(i32::from(run(programs, &seeded, [any(k)]).failed > 0));
    }
    let mut failed = hold_rows(programs) + hold_maker(programs, options.seed);
    let wanted = (0..options.sequences).map(any);
    let tallies = [
        run(programs, "constructed", constructed()),
        run(programs, &seeded, wanted),
    ];
    for tally in tallies {
        failed += tally.failed as usize + tell(&tally);
    }
    exit(i32::from(failed > 0));
}

/// Puts sequences to the programs, and says how many differ.
fn run(programs: &Programs, name: &str, all: impl IntoIterator<Item = Sequence>) -> RowTally {
    let mut tally = RowTally::default();
    for made in all {
        let found = tally.put(programs, &made);
        if !found.is_empty() && tally.failed <= 10 {
            show(programs, &made, &found);
        }
    }
    for (difference, times) in &tally.differences {
        println!("{times:8} differences: {difference:?}");
    }
    println!(
        "rows: {name}, {} sequences, {} spans, {} differences",
        tally.sequences, tally.spans, tally.failed
    );
    tally
}

/// Which kinds of spans were tried; gives how many never were, in a run that is
/// long enough.
fn tell(tally: &RowTally) -> usize {
    for (times, name) in tally.kinds() {
        println!("{times:8} spans {name}");
    }
    let never = tally.never_tried();
    if tally.sequences < 100 || never.is_empty() {
        return 0;
    }
    println!("rows: never tried, spans that {never:?}");
    never.len()
}

/// A sequence that differs, and the first line of it that does.
fn show(programs: &Programs, made: &Sequence, found: &[RowDifference]) {
    let Sequence { name, width, spans } = made;
    println!(
        "DIFFERS a sequence of {} spans, {name}: {found:?}",
        spans.len()
    );
    let due = laid(*width, spans);
    if let Some((due, said)) = first_apart(&programs.laid(*width, spans), &due) {
        println!("  due:  {due}\n  said: {said}");
    }
    let told = spans
        .iter()
        .take(300)
        .map(|s| format!("{}-{}", s.first, s.last));
    println!("  spans: {}", told.collect::<Vec<_>>().join(" "));
}
