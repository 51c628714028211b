//! The faults of stations, found by what is known beforehand alone: the metre
//! stations, and the stored cases in metres.

use crate::block::Reading;
use crate::cases::stored;
use crate::compare::check_due;
use crate::fault::Faulty;
use crate::metres::metres;
use crate::random::Random;
use crate::trial::Trial;

/// Does any of the trials find the fault?
pub fn is_found(fault: &Faulty, trials: &[Trial]) -> bool {
    let mut noise = Random::new(1, 1);
    trials.iter().any(|trial| {
        let outcome = check_due(fault, &trial.call, &trial.due, &mut noise);
        !outcome.differences.is_empty()
    })
}

/// Gives how many faults the metre stations do not find.
pub fn stations_find_all() -> Reading<usize> {
    let (known, suites) = (metres(), stored()?);
    let trials = suites.into_iter().flat_map(|suite| suite.trials);
    let is_in_metres = |trial: &Trial| trial.call.view.station.is_in_metres();
    let in_metres: Vec<Trial> = trials.filter(is_in_metres).collect();
    let (mut all, mut by_cases, mut missed) = (0, 0, 0);
    for fault in Faulty::stations() {
        all += 1;
        by_cases += usize::from(is_found(&fault, &in_metres));
        if !is_found(&fault, &known) {
            missed += 1;
            println!("MISSED by the metre stations: {}", fault.name);
        }
    }
    println!(
        "stations: {all} faults, {by_cases} found by stored cases, {missed} missed by stations"
    );
    Ok(missed + usize::from(all == 0 || by_cases == 0))
}
