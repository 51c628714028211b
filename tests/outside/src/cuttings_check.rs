//! Two cuttings without a library: each pair covers the same points, one that was
//! tampered with and shows another picture does not, and the faults that pairs
//! show by themselves.

use crate::block::Reading;
use crate::call::Call;
use crate::cases::stored;
use crate::compare::check_cuttings;
use crate::cover::same_cover;
use crate::cuttings::{make_cuttings, Cuttings};
use crate::fault::Faulty;
use crate::gate::Gate;
use crate::generate::SMALL;
use crate::random::Random;
use crate::ray::Sight;
use crate::scene::Scene;
use crate::survey::survey;
use crate::tally::CuttingsTally;
use crate::wrong_cuttings::{CUT_LOOKS, SEEN_TOO, UNSEEN, WRITES};

/// Pairs of the generator.
pub fn made(seed: u64, wanted: u64) -> Vec<Cuttings> {
    let one = |number| make_cuttings(&mut Random::new(seed, number), SMALL);
    (0..wanted).map(one).collect()
}

/// How many pairs of the stored cases do not cover the same points; none at all
/// is a fault as well.
pub fn stored_cover() -> Reading<usize> {
    let (mut pairs, mut failed) = (0, 0);
    for suite in stored()?.into_iter().filter(|suite| suite.cuttings) {
        for two in suite.trials.chunks(2) {
            let [one, other] = [0, 1].map(|k: usize| Scene::read(&two[k].call.scene).patches());
            pairs += 1;
            if !same_cover(&one, &other) {
                println!("FAILS {}: other points are covered", two[0].name);
                failed += 1;
            }
        }
    }
    println!("stored cuttings: {pairs} pairs, {failed} cover other points");
    Ok(failed + usize::from(pairs == 0))
}

/// Each pair covers the same points, and the model keeps F-5 on it.
pub fn pairs_hold(pairs: &[Cuttings]) -> usize {
    let mut tally = CuttingsTally::default();
    let mut failed = 0;
    for (k, pair) in pairs.iter().enumerate() {
        let [one, other] = pair.patches();
        let mut noise = Random::new(k as u64, 0);
        let outcomes = check_cuttings(&Faulty::none(), pair, &mut noise);
        tally.add(pair, [&outcomes[0].lent, &outcomes[1].lent]);
        let same = same_cover(&one, &other);
        if !same || outcomes.iter().any(|o| !o.differences.is_empty()) {
            println!("FAILS two cuttings {k}: cover the same {same}");
            failed += 1;
        }
    }
    println!("two cuttings: {} pairs, {failed} failed", pairs.len());
    for (times, name) in tally.told() {
        println!("two cuttings: {times} {name}");
    }
    println!("two cuttings: {} rings given up", tally.given_up);
    failed + usize::from(tally.is_thin())
}

/// The second scene with one patch under another panel, or a corner of it or all
/// of it moved by a unit; None where the gate turns it away.
fn tampered(pair: &Cuttings, rng: &mut Random) -> Option<Call> {
    let mut scene = Scene::read(&pair.second.scene);
    let at = rng.below(scene.records.len());
    let run = usize::from(scene.records[at].first)..;
    let run = run.take(usize::from(scene.records[at].count));
    let corners: Vec<usize> = run.collect();
    match rng.below(3) {
        0 => scene.records[at].panel = scene.records[at].panel % 1_024 + 1,
        1 => {
            let axis = rng.below(3);
            let corner = rng.pick(&corners);
            scene.corners[corner][axis] += rng.pick(&[-1, 1]);
        }
        _ => {
            let (axis, step) = (rng.below(3), rng.pick(&[-1, 1]));
            let moved = corners.into_iter();
            moved.for_each(|k| scene.corners[k][axis] += step);
        }
    }
    let Call { view, tile, .. } = pair.second;
    let call = Call::of_tile(scene.write(), view, tile);
    (Gate::of_the_paper().judge(&call) == 0).then_some(call)
}

/// Where the picture of a scene that was tampered with is another one, the points
/// covered are others. Gives how many of these are not told apart.
pub fn tampering_shows(pairs: &[Cuttings]) -> usize {
    let (mut told, mut shown, mut missed) = (0, 0, 0);
    for (k, pair) in pairs.iter().enumerate() {
        let Some(call) = tampered(pair, &mut Random::new(1, k as u64)) else {
            continue;
        };
        let others = Scene::read(&call.scene).patches();
        let same = same_cover(&pair.patches()[0], &others);
        let [first, _] = pair.done(Sight::Beside);
        let another = survey(&call).expect("an accepted scene").picture != first.picture;
        told += usize::from(!same);
        shown += usize::from(another);
        missed += usize::from(same && another);
    }
    println!("tampered cuttings: {told} told apart, {shown} show it, {missed} missed");
    missed + usize::from(told == 0 || shown == 0)
}

/// The faults listed as depending on the cutting are seen by two cuttings alone,
/// and those listed as unseen are not.
pub fn faults_show(pairs: &[Cuttings]) -> usize {
    let own = WRITES.iter().map(|told| told.0);
    let own = own.chain(CUT_LOOKS.iter().map(|told| told.0));
    let names: Vec<&str> = own.chain(SEEN_TOO.iter().copied()).collect();
    let (mut tried, mut failed) = (0, 0);
    for fault in Faulty::all() {
        let name = fault.name.as_str();
        let wanted = names.contains(&name);
        if !wanted && !UNSEEN.contains(&name) {
            continue;
        }
        tried += 1;
        let found = fault.found_by_cuttings(pairs);
        match found {
            Some(k) if wanted => println!("found by two cuttings alone, {k}: {name}"),
            None if !wanted => (),
            _ => {
                println!("MISSED or seen in vain by two cuttings, {found:?}: {name}");
                failed += 1;
            }
        }
    }
    println!("two cuttings alone: {tried} faults tried, {failed} failed");
    failed + usize::from(tried != names.len() + UNSEEN.len())
}
