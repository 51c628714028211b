//! Maps without the library: rows of bare maps and of stored cases on the model, and
//! the faults of maps that each of them sees.

use crate::bare_maps::{bare_map, put_bare_maps};
use crate::block::Reading;
use crate::cases::stored;
use crate::fault::Faulty;
use crate::generate::SMALL;
use crate::map_cases::{hold_maps, map_suites, MapCase};
use crate::map_compare::answers_apart;
use crate::map_stations::maps;
use crate::station_check::is_found;
use crate::trial::Trial;

/// Bare maps that each fault is put to, and cases of surveys.
const BARE: u64 = 4_000;
const CASES: u64 = 4_000;

/// Faults of the row calls that no survey's map shows: it has no words over.
const UNSURVEYED: &[&str] = &[
    "lit: a row begun inside the map",
    "lit: none in a map with words over",
    "first: a row begun inside the map",
];

/// Faults that the stored rows do not see: no width of these is above 256, and no
/// row just behind whole rows.
const UNSTORED: &[&str] = &[
    "lit: the last row again at the map's end",
    "first: a lit column beyond the words",
    "first: 0 for a width above 256",
    "first: on into the next rows",
    "first: the last row again at the map's end",
];

/// Everything of maps that needs no library; gives how many fail.
pub fn maps_hold(seed: u64) -> Reading<usize> {
    let right = Faulty::none();
    let failed = hold_maps(&right) + put_bare_maps(&right, seed, BARE);
    Ok(failed + row_faults(seed)? + writing_faults()?)
}

/// Every fault of the row calls is found by bare maps and by stations, and by
/// surveys and stored rows where these can see it; gives how many are not.
fn row_faults(seed: u64) -> Reading<usize> {
    let [(_, stations), (_, stored)] = map_suites()?;
    let (mut tried, mut missed) = (0, 0);
    for fault in Faulty::map_rows() {
        let bare = found_by_bare(&fault, seed);
        let surveyed = fault.found(seed, CASES, SMALL);
        let at_stations = is_seen(&fault, &stations);
        let in_stored = is_seen(&fault, &stored);
        let name = fault.name.as_str();
        let right = bare.is_some()
            && at_stations
            && surveyed.is_some() != UNSURVEYED.contains(&name)
            && in_stored != UNSTORED.contains(&name);
        tried += 1;
        missed += usize::from(!right);
        println!(
            "{} {:?} by bare map {bare:?}, survey {surveyed:?}, stations {at_stations}, \
             stored {in_stored}: {name}",
            if right { "found" } else { "MISSED" },
            fault.shows
        );
    }
    println!("map rows: {tried} faults, {missed} missed");
    Ok(missed + usize::from(tried == 0))
}

/// The first bare map by which the fault shows, and nothing else does.
fn found_by_bare(fault: &Faulty, seed: u64) -> Option<u64> {
    (0..BARE).find(|&number| {
        let asked = bare_map(seed, number);
        answers_apart(asked.said(fault), asked.due()) == fault.shows
    })
}

fn is_seen(fault: &Faulty, cases: &[MapCase]) -> bool {
    cases.iter().any(|case| !case.check(fault).is_empty())
}

/// Every fault of the map's writing, of its refusals and of its length is found by
/// the map stations alone; gives how many are not. Of the stored cases it is told.
fn writing_faults() -> Reading<usize> {
    let known = maps();
    let suites = stored()?.into_iter();
    let own = suites.filter(|suite| suite.name == "F-8.txt");
    let stored: Vec<Trial> = own.flat_map(|suite| suite.trials).collect();
    let (mut tried, mut by_cases, mut missed) = (0, 0, 0);
    for fault in Faulty::maps() {
        tried += 1;
        by_cases += usize::from(is_found(&fault, &stored));
        if !is_found(&fault, &known) {
            missed += 1;
            println!("MISSED by the map stations: {}", fault.name);
        }
    }
    println!("maps: {tried} faults, {by_cases} found by stored cases, {missed} missed by stations");
    Ok(missed + usize::from(tried == 0 || by_cases == 0))
}
