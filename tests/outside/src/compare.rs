//! One call put to the library and to the model.

use crate::call::{Call, Lent, Library};
use crate::cuttings::Cuttings;
use crate::forms;
use crate::gate::{Gate, STRUCK};
use crate::map_compare::rows_apart;
use crate::pairs::{parts, Pair, Pictures};
use crate::random::Random;
use crate::scene::Scene;
use crate::survey::{Done, Due};

#[derive(Clone, Copy, Debug, PartialEq, Eq, PartialOrd, Ord)]
pub enum Difference {
    /// The survey's number is another.
    Answer,
    /// The gate's number is another.
    Gate,
    /// A call answered a number that is struck, whatever is due.
    Struck,
    Picture,
    Counts,
    PatchCounts,
    Unlit,
    /// F-8: the lit map.
    Lit,
    Counter,
    /// "A panel's count is the sum over its patches."
    PanelSums,
    /// A refusal, or a scene, was not left as it was.
    TouchedPicture,
    TouchedCounts,
    TouchedPatchCounts,
    TouchedUnlit,
    TouchedLit,
    TouchedCounter,
    TouchedScene,
    /// Demand 3, in the order of its sentence.
    EqualWhenNoneCounted,
    FirstShowsClosest,
    DifferWhereChosen,
    SecondShowsKept,
    /// F-5: two cuttings of one ring.
    CuttingsPicture,
    CuttingsCounts,
    CuttingsUnlit,
    CuttingsLit,
    /// F-9: a window put together from its tiles.
    WholePicture,
    WholeCounts,
    WholePatchCounts,
    WholeCounter,
    /// F-7: two forms of one station.
    Forms,
    /// F-8: the calls on a row of a map.
    RowLit,
    RowFirstUnlit,
    /// `ringbill` printed something else.
    Bill,
}

use Difference::*;

pub struct Outcome {
    /// The answer that is due.
    pub number: u32,
    /// The survey's answer and the gate's.
    pub answers: [u32; 2],
    pub lent: Lent,
    pub differences: Vec<Difference>,
}

pub fn note(differences: &mut Vec<Difference>, differs: bool, which: Difference) {
    if differs {
        differences.push(which);
    }
}

/// Survey and gate on one call, against what the model makes of it.
pub fn check(library: &dyn Library, call: &Call, rng: &mut Random) -> Outcome {
    check_by(library, call, &Due::of(call), rng)
}

/// The same against what is due by the model, however that was worked out.
pub fn check_by(library: &dyn Library, call: &Call, due: &Due, rng: &mut Random) -> Outcome {
    let mut outcome = check_due(library, call, due, rng);
    let accepted = outcome.number == 0;
    let broken = accepted && !panel_sums_hold(call, &outcome.lent);
    note(&mut outcome.differences, broken, PanelSums);
    outcome
}

/// Survey and gate on one call, the buffers full of noise before.
pub fn check_due(library: &dyn Library, call: &Call, due: &Due, rng: &mut Random) -> Outcome {
    let before = Lent::noise(call, rng);
    let mut lent = before.clone();
    let asked = call.clone();
    let answer = library.survey(&asked, &mut lent);
    let gate = library.gate(&asked);
    let number = due.answer();

    let mut found = Vec::new();
    note(&mut found, answer != number, Answer);
    note(&mut found, gate != number, Gate);
    note(&mut found, [answer, gate].contains(&STRUCK), Struck);
    note(&mut found, asked.scene != call.scene, TouchedScene);
    match &due.result {
        Ok(done) => {
            found.extend(miswritten(&lent, done));
            found.extend(rows_apart(library, &lent.lit, call.tile.width));
            note(&mut found, lent.counter != due.counter, Counter);
        }
        Err(_) => {
            found.extend(touched(&lent, &before));
            note(&mut found, lent.counter != due.counter, TouchedCounter);
        }
    }
    Outcome {
        number,
        answers: [answer, gate],
        lent,
        differences: found,
    }
}

/// What a call that was accepted did not leave as is due.
fn miswritten(lent: &Lent, done: &Done) -> Vec<Difference> {
    let mut found = Vec::new();
    let patch_counts = &*lent.patch_counts;
    note(&mut found, *lent.picture != *done.picture, Picture);
    note(&mut found, *lent.counts != *done.counts, Counts);
    note(&mut found, *patch_counts != *done.patch_counts, PatchCounts);
    note(&mut found, *lent.unlit != *done.unlit, Unlit);
    note(&mut found, *lent.lit != *done.lit, Lit);
    found
}

/// "The first no gives its number, and nothing lent is altered."
fn touched(lent: &Lent, before: &Lent) -> Vec<Difference> {
    let mut found = Vec::new();
    let booked = lent.patch_counts != before.patch_counts;
    note(&mut found, lent.picture != before.picture, TouchedPicture);
    note(&mut found, lent.counts != before.counts, TouchedCounts);
    note(&mut found, booked, TouchedPatchCounts);
    note(&mut found, lent.unlit != before.unlit, TouchedUnlit);
    note(&mut found, lent.lit != before.lit, TouchedLit);
    found
}

/// Of what an accepted call left: each panel's count is the sum over its
/// patches, whichever cells they have.
pub fn panel_sums_hold(call: &Call, lent: &Lent) -> bool {
    panels_hold(&call.scene, &lent.counts, &lent.patch_counts)
}

/// The same of any counts, and of those added over tiles.
pub fn panels_hold(scene: &[u8], counts: &[u32], patch_counts: &[u32]) -> bool {
    let mut sums = vec![0u64; counts.len()];
    let records = Scene::read(scene).records;
    for (record, &cells) in records.iter().zip(patch_counts) {
        sums[usize::from(record.panel)] += u64::from(cells);
    }
    let counts = counts.iter().map(|&cells| u64::from(cells));
    sums.into_iter().skip(1).eq(counts.skip(1))
}

/// "From every accepted view their pictures and panel counts must agree": what
/// two accepted calls on two cuttings left. The unlit lists and the map are those of
/// the pictures.
pub fn cuttings_apart(first: &Lent, second: &Lent) -> Vec<Difference> {
    let mut found = Vec::new();
    note(&mut found, first.picture != second.picture, CuttingsPicture);
    note(&mut found, first.counts != second.counts, CuttingsCounts);
    note(&mut found, first.unlit != second.unlit, CuttingsUnlit);
    note(&mut found, first.lit != second.lit, CuttingsLit);
    found
}

/// Both calls of two cuttings, and F-5 on what they left.
pub fn check_cuttings(library: &dyn Library, pair: &Cuttings, rng: &mut Random) -> [Outcome; 2] {
    let [first, mut second] = pair.calls().map(|call| check(library, call, rng));
    let apart = cuttings_apart(&first.lent, &second.lent);
    second.differences.extend(apart);
    [first, second]
}

/// One call in all its forms: they are answered alike, and where accepted leave
/// the same, patch table and counter too.
pub fn check_forms(library: &dyn Library, calls: &forms::Forms, rng: &mut Random) -> [Outcome; 3] {
    let mut outcomes = calls.each_ref().map(|call| check(library, call, rng));
    let [first, others @ ..] = &mut outcomes;
    for other in others {
        let left = first.number == 0 && other.lent != first.lent;
        let unlike = left || other.answers != first.answers;
        note(&mut other.differences, unlike, Forms);
    }
    outcomes
}

/// The gate alone, for lengths that nobody can lend.
pub fn check_gate(library: &dyn Library, call: &Call) -> (u32, Vec<Difference>) {
    let number = Gate::of_the_paper().judge(call);
    let answer = library.gate(call);
    let mut found = Vec::new();
    note(&mut found, answer != number, Gate);
    note(&mut found, answer == STRUCK, Struck);
    (number, found)
}

/// Both calls of a pair, and demand 3 on what they left.
pub fn check_pair(library: &dyn Library, pair: &Pair, rng: &mut Random) -> [Outcome; 2] {
    let first = check(library, &pair.first, rng);
    let mut second = check(library, &pair.second, rng);
    let held = parts(pair, &Pictures::of(&first.lent, &second.lent), 1);
    second.differences.extend(noted_parts(held));
    [first, second]
}

/// The parts of demand 3 that do not hold.
pub fn noted_parts(held: [bool; 4]) -> Vec<Difference> {
    let names = [
        EqualWhenNoneCounted,
        FirstShowsClosest,
        DifferWhereChosen,
        SecondShowsKept,
    ];
    let broken = held.into_iter().zip(names).filter(|(held, _)| !held);
    broken.map(|(_, name)| name).collect()
}
