//! Tiles without the library: every fault of theirs is found by what is known
//! beforehand alone, and whole windows show what they must.

use crate::block::Reading;
use crate::cases::stored;
use crate::compare::Difference;
use crate::fault::Faulty;
use crate::generate::{KINDS, SMALL};
use crate::random::Random;
use crate::station_check::is_found;
use crate::tile_stations::tile_stations;
use crate::trial::Trial;
use crate::window_compare::check_windows;
use crate::window_stations::window_stations;
use crate::windows::make_windows;

/// Gives how many faults the stations of tiles do not find. Of the stored cases it is
/// told.
pub fn tiles_find_all() -> Reading<usize> {
    let mut known = tile_stations();
    known.extend(window_stations().0);
    let suites = stored()?.into_iter();
    let own = suites.filter(|suite| suite.name == "F-9.txt");
    let stored: Vec<Trial> = own.flat_map(|suite| suite.trials).collect();
    let (mut tried, mut by_cases, mut missed) = (0, 0, 0);
    for fault in Faulty::tiles() {
        tried += 1;
        by_cases += usize::from(is_found(&fault, &stored));
        if !is_found(&fault, &known) {
            missed += 1;
            println!("MISSED by the tile stations: {}", fault.name);
        }
    }
    println!(
        "tiles: {tried} faults, {by_cases} found by stored cases, {missed} missed by stations"
    );
    Ok(missed + usize::from(tried == 0 || by_cases == 0))
}

/// What only whole windows show, each with a fault by which they must show it: their
/// own differences, and the four parts of demand 3.
const BY_WINDOWS: &[(&str, Difference)] = &[
    (
        "tile: as if it were its own window",
        Difference::WholePicture,
    ),
    (
        "tile: nothing counted by the window's cells",
        Difference::WholeCounts,
    ),
    (
        "tile: patches booked over the whole window",
        Difference::WholePatchCounts,
    ),
    ("counter: rises with each tile", Difference::WholeCounter),
    ("counter: rises with the last row", Difference::WholeCounter),
    (
        "counter: rises with a tile that is the window",
        Difference::WholeCounter,
    ),
    (
        "counts added to those before",
        Difference::EqualWhenNoneCounted,
    ),
    ("tile: every tile the first", Difference::FirstShowsClosest),
    ("first stored is shown", Difference::DifferWhereChosen),
    (
        "tile: rows from the window's top",
        Difference::SecondShowsKept,
    ),
];

/// As many windows as each of these is put to.
const WINDOWS: u64 = 2_000;

/// Gives how many of them whole windows do not show.
pub fn windows_tell(seed: u64) -> usize {
    let faults = Faulty::all();
    let mut missed = 0;
    for (name, difference) in BY_WINDOWS {
        let fault = faults.iter().find(|fault| fault.name == *name);
        let found = fault.and_then(|fault| {
            (0..WINDOWS).find(|&number| shown(fault, seed, number).contains(difference))
        });
        missed += usize::from(found.is_none());
        let told = if found.is_some() { "found" } else { "MISSED" };
        println!("{told} {difference:?} by window {found:?}: {name}");
    }
    println!("windows: {} differences, {missed} missed", BY_WINDOWS.len());
    missed
}

/// What differs in one pair of windows.
fn shown(fault: &Faulty, seed: u64, number: u64) -> Vec<Difference> {
    let rng = &mut Random::new(seed, number);
    let kind = rng.pick(&KINDS);
    let windows = make_windows(rng, kind, SMALL);
    let outcomes = check_windows(fault, &windows, rng);
    outcomes.into_iter().flat_map(|o| o.differences).collect()
}
