//! Doubles by the thousand put to a library, each along one axis: the gauge of its
//! whole number, or S refused.

use crate::call::Library;
use crate::compare::{check_due, Difference};
use crate::double::Double;
use crate::double_check::tried;
use crate::fault::Faulty;
use crate::metres::due;
use crate::random::Random;
use crate::trial::SHOWN;

/// What differs from what is due of the double that comes after k others.
fn found(library: &dyn Library, k: usize, double: Double) -> Vec<Difference> {
    let trial = due(k % 3, double);
    let mut noise = Random::new(1, k as u64);
    check_due(library, &trial.call, &trial.due, &mut noise).differences
}

/// Every whole number and halfway point within ±10,000 and beyond, the doubles
/// beside them, every exponent, and any bits; gives how many differ.
pub fn gauge_library(library: &dyn Library, seed: u64, random: u64) -> usize {
    let all = tried(seed, random);
    let mut failed = 0;
    for (k, &double) in all.iter().enumerate() {
        let differences = found(library, k, double);
        if !differences.is_empty() {
            failed += 1;
            if failed <= SHOWN {
                println!("DIFFERS {double:?} along axis {}: {differences:?}", k % 3);
            }
        }
    }
    let passed = all.iter().filter(|double| double.units().is_some());
    let (all, passed) = (all.len(), passed.count());
    println!("gauged: {all} doubles, {passed} of them in range, {failed} differ");
    failed + usize::from(passed == 0 || passed == all)
}

/// A part of them tells what rounds wrongly from what does not; gives how many
/// are not told.
pub fn gauging_tells() -> usize {
    let part: Vec<Double> = tried(1, 0).into_iter().step_by(97).collect();
    let differs = |library: &Faulty| {
        let mut doubles = part.iter().enumerate();
        doubles.any(|(k, &double)| !found(library, k, double).is_empty())
    };
    let mut wrong = Faulty::stations();
    wrong.retain(|fault| fault.shows.contains(&Difference::Forms));
    let missed = wrong.iter().filter(|fault| !differs(fault)).count();
    let is_right = !differs(&Faulty::none());
    let (all, doubles) = (wrong.len(), part.len());
    println!("gauging: {all} ways to round wrongly, {missed} missed by {doubles} doubles");
    missed + usize::from(!is_right) + usize::from(all == 0)
}
