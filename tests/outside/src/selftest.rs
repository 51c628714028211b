//! The outside check checked, without the library.
//!
//! `selftest` runs the paper's stations and the stored cases on the model, the
//! model against itself and the comparison against faulty libraries.
//! `selftest --bill` reads an input of `ringbill` and prints what the model
//! makes of it, and so do `selftest --rows-laid` and `selftest --rows-worst`
//! with an input of the programs of rows.

use std::io::Read;
use std::process::exit;

use outside::altered::{every_line, files_are_refused};
use outside::bill::bill;
use outside::block::Reading;
use outside::call::Call;
use outside::consistency::{
    booked_once, map_and_lists_agree, old_directions_hold, pair_holds, parts_are_told_apart,
    rays_agree, sums_hold, turned_back,
};
use outside::cuttings_check::{faults_show, made, pairs_hold, stored_cover, tampering_shows};
use outside::differential::{case, put, Case, Tally};
use outside::double_check::doubles_hold;
use outside::fault::Faulty;
use outside::gate::{Gate, STRUCK};
use outside::gauging::gauging_tells;
use outside::generate::{FULL, SMALL};
use outside::map_check::maps_hold;
use outside::random::Random;
use outside::rings::covered;
use outside::row_check::rows_hold;
use outside::row_fault::Laying;
use outside::row_programs::{written_for_laid, written_for_worst};
use outside::station_check::stations_find_all;
use outside::stations::stations;
use outside::steps::steps_agree;
use outside::survey::is_read_otherwise;
use outside::tile_check::{tiles_find_all, windows_tell};
use outside::trial::hold_model;

const SEED: u64 = 20;

fn main() {
    match std::env::args().nth(1).as_deref() {
        None => (),
        Some("--bill") => return print(bill),
        Some("--rows-laid") => return print(|input| written_for_laid(&Laying::right(), input)),
        Some("--rows-worst") => return print(|input| written_for_worst(&Laying::right(), input)),
        Some(word) => {
            eprintln!("selftest: not understood: {word}");
            exit(2)
        }
    }
    let failed = failing();
    println!("selftest: {failed} failed");
    exit(i32::from(failed > 0));
}

/// What the model makes of standard input.
fn print(made_of: impl Fn(&[u8]) -> String) {
    let mut input = Vec::new();
    let read = std::io::stdin().read_to_end(&mut input);
    read.expect("an input");
    print!("{}", made_of(&input));
}

/// All checks; gives how many fail.
fn failing() -> usize {
    let mut failed = 0;
    let asked = Gate::of_the_paper().numbers();
    let old = [
        ("the old view's directions", old_directions_hold()),
        ("13 is no question's number", !asked.contains(&STRUCK)),
    ];
    let told = stations().into_iter().chain(parts_are_told_apart());
    for (name, held) in told.chain(covered()).chain(old) {
        println!("{} {name}", if held { "holds" } else { "FAILS" });
        failed += usize::from(!held);
    }
    failed += doubles_hold(SEED, 20_000) + gauging_tells();
    failed += hold_model();
    let known = [
        alterations_show(),
        stations_find_all(),
        maps_hold(SEED),
        tiles_find_all(),
    ];
    for checked in known {
        failed += checked.unwrap_or_else(|why| {
            println!("FAILS {why}");
            1
        });
    }
    failed += windows_tell(SEED);
    failed += cuttings(1_000);
    // The sequences of spans that tests/outside.sh puts to the programs.
    failed += rows_hold(1, 600);
    failed += consistent(400);
    failed += sound(1_500);
    failed + faults(12_000)
}

/// No stored case can be altered unseen.
fn alterations_show() -> Reading<usize> {
    let (seen, missed) = every_line()?;
    println!("altered cases: {seen} seen, {missed} missed");
    let refused = files_are_refused()?;
    println!("{} broken files", if refused { "refused" } else { "READ" });
    Ok(missed + usize::from(!refused) + usize::from(seen == 0))
}

/// Two cuttings cover the same points, and show by themselves what depends on
/// the cutting.
fn cuttings(wanted: u64) -> usize {
    let pairs = made(SEED, wanted);
    let stored = stored_cover().unwrap_or_else(|why| {
        println!("FAILS {why}");
        1
    });
    stored + pairs_hold(&pairs) + tampering_shows(&pairs) + faults_show(&pairs)
}

/// The call of a made scene that is accepted, in units or in metres.
fn accepted(made: &Case) -> Option<&Call> {
    let call = match made {
        Case::Scene(_, call) => call,
        Case::Forms(calls) => &calls[1],
        _ => return None,
    };
    (Gate::of_the_paper().judge(call) == 0).then_some(call)
}

/// Rays, steps, sums, maps, bookings and pairs of made scenes.
fn consistent(cases: u64) -> usize {
    let (mut scenes, mut pairs, mut back, mut stepped, mut failed) = (0, 0, 0, 0, 0);
    for number in 0..cases {
        let made = case(SEED, number, SMALL);
        let mut rng = Random::new(SEED, !number);
        let mut held = true;
        if let Some(call) = accepted(&made) {
            scenes += 1;
            let (turned, steps) = (turned_back(call), steps_agree(call));
            back += usize::from(turned.is_some());
            stepped += usize::from(steps.is_some() && is_read_otherwise(call));
            let others = [turned, steps].map(|held| held.unwrap_or(true));
            let sums = sums_hold(call) && map_and_lists_agree(call);
            let own = rays_agree(call) && sums && booked_once(call);
            held = own && others == [true; 2];
        }
        if let Case::Two(_, pair) = &made {
            pairs += 1;
            held = pair_holds(pair, &mut rng) && rays_agree(&pair.second);
        }
        if !held {
            println!("FAILS case {number}: {}", made.name());
            failed += 1;
        }
    }
    println!(
        "consistent: {scenes} scenes, {back} turned back, {stepped} by steps, {pairs} pairs, \
         {failed} failed"
    );
    failed + usize::from([scenes, back, stepped, pairs].contains(&0))
}

/// No fault, no difference. Few cases: the comparison with the library itself runs on thousands.
fn sound(cases: u64) -> usize {
    let mut tally = Tally::default();
    for number in 0..cases {
        let mut noise = Random::new(!SEED, number);
        let made = case(SEED, number, FULL);
        put(&Faulty::none(), &made, &mut noise, &mut tally);
    }
    println!("no fault: {cases} cases, {} differences", tally.failed);
    println!("answers: {:?}", tally.answers);
    println!("pieces: {:?}", tally.pieces.told());
    println!("stations: {:?}", tally.stations.told());
    println!("maps: {:?}", tally.maps.told());
    println!("tiles: {:?}", tally.tiles.told());
    println!("windows: {:?}", tally.windows.told());
    for (name, shown) in tally.views() {
        println!("{name} views: {:?}", shown.beside.told());
    }
    let unseen = tally.never_shown();
    println!("never shown: {unseen:?}");
    tally.failed as usize + unseen.len()
}

/// Every fault is found, and by the difference it must show.
fn faults(cases: u64) -> usize {
    let mut missed = 0;
    for fault in Faulty::all() {
        match fault.found(SEED, cases, SMALL) {
            Some(number) => println!("found {:?} in case {number}: {}", fault.shows, fault.name),
            None => {
                println!("MISSED {:?}: {}", fault.shows, fault.name);
                missed += 1;
            }
        }
    }
    missed
}
