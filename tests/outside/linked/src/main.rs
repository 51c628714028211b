//! The library set against the stored cases, the stations, doubles and bare maps by
//! the thousand, and the model case by case.
//!
//!     differential [--cases N] [--cuttings N] [--seed S] [--only K]
//!                  [--only-cuttings K] [--small] [--trace] [--out DIR]
//!                  [--ringbill PROGRAM]
//!
//! Two cuttings of a ring are a case of their own sort; there are two of these
//! pairs for each of the others, or as many as `--cuttings` says. Bare maps for the
//! row calls are no cases: there are four for each, and one that differs is printed
//! whole. A case that differs is written to DIR as an input of `ringbill`, its axes
//! and the doubles of its station in what is printed. `--only` runs case K alone,
//! `--only-cuttings` pair K of cuttings alone, `--trace` names each case before
//! it runs, `--small` keeps cases cheap and leaves the doubles out, `--ringbill`
//! sets the program, whose view is level, against the model too.

mod library;

use std::env;
use std::fs;
use std::ops::Range;
use std::process::exit;

use library::Linked;
use outside::bare_maps::put_bare_maps;
use outside::bill::{bill, LONGEST, SHORTEST};
use outside::call::Call;
use outside::compare::Difference;
use outside::differential::{case, put, two_cuttings, Case, Tally};
use outside::gate::Gate;
use outside::gauging::gauge_library;
use outside::generate::{FULL, SMALL};
use outside::map_cases::hold_maps;
use outside::program::printed;
use outside::random::Random;
use outside::tile::{TALLEST, WIDEST};
use outside::trial::hold_library;

struct Options {
    cases: u64,
    cuttings: Option<u64>,
    seed: u64,
    only: Option<u64>,
    only_cuttings: Option<u64>,
    small: bool,
    trace: bool,
    out: String,
    ringbill: Option<String>,
}

fn options() -> Options {
    let mut options = Options {
        cases: 5_000,
        cuttings: None,
        seed: 1,
        only: None,
        only_cuttings: None,
        small: false,
        trace: false,
        out: ".".to_string(),
        ringbill: None,
    };
    let mut words = env::args().skip(1);
    while let Some(word) = words.next() {
        let mut value = || words.next().unwrap_or_else(|| usage(&word));
        match word.as_str() {
            "--cases" => options.cases = number(&value()),
            "--cuttings" => options.cuttings = Some(number(&value())),
            "--seed" => options.seed = number(&value()),
            "--only" => options.only = Some(number(&value())),
            "--only-cuttings" => options.only_cuttings = Some(number(&value())),
            "--small" => options.small = true,
            "--trace" => options.trace = true,
            "--out" => options.out = value(),
            "--ringbill" => options.ringbill = Some(value()),
            _ => usage(&word),
        }
    }
    options
}

fn usage(word: &str) -> ! {
    eprintln!("differential: not understood: {word}");
    exit(2)
}

fn number(word: &str) -> u64 {
    word.parse().unwrap_or_else(|_| usage(word))
}

impl Options {
    /// The cases and the cuttings to run, and whether these are all there are.
    fn numbers(&self) -> ([Range<u64>; 2], bool) {
        match (self.only, self.only_cuttings) {
            (None, None) => {
                let cuttings = self.cuttings.unwrap_or(2 * self.cases);
                ([0..self.cases, 0..cuttings], true)
            }
            (case, cuttings) => {
                let one = |k: Option<u64>| k.map_or(0..0, |k| k..k + 1);
                ([one(case), one(cuttings)], false)
            }
        }
    }
}

fn main() {
    let options = options();
    let size = if options.small { SMALL } else { FULL };
    let mut tally = Tally::default();
    let ([cases, cuttings], all) = options.numbers();
    let mut known = if all { hold_library(|| Linked) } else { 0 };
    if all && !options.small {
        known += gauge_library(&Linked, options.seed, options.cases);
    }
    if all {
        known += hold_maps(&Linked);
        known += put_bare_maps(&Linked, options.seed, 4 * options.cases);
    }
    for k in cases {
        let made = case(options.seed, k, size);
        run(&options, k, &made, &mut tally);
    }
    for k in cuttings {
        let made = two_cuttings(options.seed, k, size);
        run(&options, k, &made, &mut tally);
    }
    let status = report(&options, &tally);
    exit(status.max(i32::from(known > 0)));
}

fn run(options: &Options, k: u64, made: &Case, tally: &mut Tally) {
    if options.trace {
        println!("case {k}: {}", made.name());
    }
    let mut noise = Random::new(!options.seed, k);
    let mut differences = put(&Linked, made, &mut noise, tally);
    if let Some(program) = &options.ringbill {
        if !matches!(made, Case::Cuttings(_)) && !bills_agree(program, made, k) {
            tally.failed += u64::from(differences.is_empty());
            *tally.differences.entry(Difference::Bill).or_default() += 1;
            differences.push(Difference::Bill);
        }
    }
    if !differences.is_empty() && tally.failed <= 20 {
        keep(options, k, made, &differences);
    }
}

/// Writes a case that differs, one file a scene.
fn keep(options: &Options, k: u64, made: &Case, differences: &[Difference]) {
    println!("DIFFERS case {k} ({}): {differences:?}", made.name());
    let sort = match made {
        Case::Cuttings(_) => "cuttings",
        _ => "outside",
    };
    for (place, call) in made.calls().into_iter().enumerate() {
        let file = format!("{}/{sort}-{}-{k}-{place}.case", options.out, options.seed);
        println!(
            "  {file}: {:?}, {:?}, lengths {} {} {} {} {}, counter {}",
            call.view,
            call.tile,
            call.picture_len,
            call.counts_len,
            call.patch_counts_len,
            call.unlit_len,
            call.lit_len,
            call.counter
        );
        if let Err(error) = fs::write(&file, call.standard_input()) {
            println!("  not written: {error}");
        }
    }
    let chosen = match made {
        Case::Two(_, pair) => &pair.chosen,
        Case::Windows(_, windows) => &windows.pair.chosen,
        _ => return,
    };
    println!("  chosen panels: {chosen:?}");
}

/// What was tried and what it showed.
fn tell(tally: &Tally) {
    for (kind, times) in &tally.kinds {
        println!("{times:8} {kind}");
    }
    for (answer, times) in &tally.answers {
        println!("{times:8} answered {answer}");
    }
    for (name, shown) in tally.views() {
        println!(
            "{:8} {name} views accepted: {} cells, {} of them lit",
            shown.pictures, shown.cells, shown.lit
        );
        for (pictures, cells, way) in shown.beside.told() {
            println!("{pictures:8} {name} views have cells {way}: {cells}");
        }
    }
    for (times, name) in tally.pieces.told() {
        println!("{times:8} views show {name}");
    }
    let told = tally.stations.told().into_iter().chain(tally.maps.told());
    for (times, name) in told.chain(tally.tiles.told()).chain(tally.windows.told()) {
        println!("{times:8} {name}");
    }
    let windows = &tally.windows;
    println!(
        "{:8} cells in {} tiles of windows",
        windows.cells, windows.tiles
    );
    for (answer, times) in &tally.stations.answers {
        println!("{times:8} calls in metres answered {answer}");
    }
    for (times, name) in tally.cuttings.told() {
        println!("{times:8} two cuttings {name}");
    }
    println!("{:8} rings were given up", tally.cuttings.given_up);
    for (difference, times) in &tally.differences {
        println!("{times:8} differences: {difference:?}");
    }
}

/// Cases of a run that must show everything; a shorter one may miss what is rare,
/// as a signalling NaN.
const MANY: u64 = 2_000;

/// The answers that no call in metres got.
fn unasked_in_metres(tally: &Tally) -> Vec<u32> {
    let mut all = Gate::of_the_paper().numbers();
    all.retain(|answer| !tally.stations.answers.contains_key(answer));
    all
}

fn report(options: &Options, tally: &Tally) -> i32 {
    println!("seed {}", options.seed);
    tell(tally);
    let mut silent = vec![0];
    silent.extend(Gate::of_the_paper().numbers());
    silent.retain(|answer| !tally.answers.contains_key(answer));
    let unseen = tally.never_shown();
    let others = tally.cases - tally.cuttings.pairs;
    let unasked = unasked_in_metres(tally);
    let thin = others >= MANY && !(silent.is_empty() && unseen.is_empty() && unasked.is_empty());
    if thin {
        println!("never answered: {silent:?}, in metres: {unasked:?}, never shown: {unseen:?}");
    }
    let bites = !tally.cuttings.is_thin();
    if !bites {
        println!("two cuttings: something never met with");
    }
    println!(
        "outside: {} cases, {} of them two cuttings, {} differences",
        tally.cases, tally.cuttings.pairs, tally.failed
    );
    i32::from(tally.failed > 0 || thin || !bites)
}

/// The calls whose bills are asked: of a window by its tiles that of the whole.
fn billed(made: &Case) -> Vec<Call> {
    match made {
        Case::Windows(_, windows) => vec![windows.pair.first.clone(), windows.pair.second.clone()],
        _ => made.calls().into_iter().map(one_tile).collect(),
    }
}

/// "`ringbill` draws its window as one tile": the call's window, or one as large as the
/// tile where the whole of it would be dear.
fn one_tile(call: &Call) -> Call {
    let mut own = call.clone();
    let (view, tile) = (&mut own.view, call.tile);
    let is_refused = view.width > WIDEST || view.height > TALLEST;
    if !is_refused && view.cells() > 4 * tile.cells() {
        (view.width, view.height) = (tile.width, tile.height);
    }
    own
}

/// `ringbill` on the case's inputs, now and then cut or overlong.
fn bills_agree(program: &str, made: &Case, k: u64) -> bool {
    billed(made).iter().all(|call| {
        let mut input = call.standard_input();
        match k % 50 {
            17 => input.truncate((k / 50 % (SHORTEST as u64 + 2)) as usize),
            18 => input.resize(LONGEST + (k / 50 % 3) as usize, 0),
            _ => (),
        }
        printed(program, &input) == bill(&input)
    })
}
