//! The run: cases by number, each from the seed alone.

use crate::call::{Call, Library};
use crate::compare::{
    check, check_cuttings, check_forms, check_gate, check_pair, Difference, Outcome,
};
use crate::cover::same_cover;
use crate::cuttings::{make_cuttings, Cuttings};
use crate::forms::{forms_of, gauged, in_some_form, in_two_forms, Forms};
use crate::generate::{make, Kind, Size, KINDS};
use crate::harmed::damaged;
use crate::lengths::beyond_memory;
use crate::outer::ends;
use crate::pairs::{make_pair, Pair};
use crate::random::Random;
pub use crate::tally::Tally;
use crate::window_compare::check_windows;
use crate::windows::{make_windows, Windows};

pub enum Case {
    /// A scene of the generator, which must be accepted.
    Scene(Kind, Call),
    /// One call in three forms, from the station of a scene or of a gauge.
    Forms(Box<Forms>),
    /// A damaged scene, and the questions aimed at.
    Damaged(Vec<u32>, Call),
    /// A call at the ends of its ranges, or just beyond.
    Ends(Call),
    /// The gate alone.
    Lengths(Call),
    /// Two scenes for demand 3.
    Two(Kind, Box<Pair>),
    /// Two whole windows by their tiles.
    Windows(Kind, Box<Windows>),
    /// Two scenes for F-5.
    Cuttings(Box<Cuttings>),
}

impl Case {
    pub fn name(&self) -> String {
        match self {
            Case::Scene(kind, _) => format!("scene {kind:?}"),
            Case::Damaged(aims, _) if aims.len() > 1 => "damage, several".to_string(),
            Case::Damaged(aims, _) => match aims[0] {
                0 => "damage, any bytes".to_string(),
                aim => format!("damage, question {aim:2}"),
            },
            Case::Forms(_) => "one station in three forms".to_string(),
            Case::Ends(_) => "calls at the ends".to_string(),
            Case::Lengths(_) => "lengths beyond memory".to_string(),
            Case::Two(kind, _) => format!("pair {kind:?}"),
            Case::Windows(..) => "windows by their tiles".to_string(),
            Case::Cuttings(_) => "two cuttings".to_string(),
        }
    }

    pub fn calls(&self) -> Vec<&Call> {
        match self {
            Case::Scene(_, call) | Case::Damaged(_, call) => vec![call],
            Case::Ends(call) | Case::Lengths(call) => vec![call],
            Case::Two(_, pair) => vec![&pair.first, &pair.second],
            Case::Windows(_, windows) => windows.calls.iter().flatten().collect(),
            Case::Forms(calls) => calls.iter().collect(),
            Case::Cuttings(pair) => pair.calls().to_vec(),
        }
    }
}

/// Case `number` of the run of `seed`.
pub fn case(seed: u64, number: u64, size: Size) -> Case {
    let mut rng = Random::new(seed.rotate_left(16), number);
    let mut made = in_units(seed, number, size);
    match &mut made {
        Case::Scene(_, call) | Case::Damaged(_, call) => in_some_form(&mut rng, call),
        Case::Ends(call) | Case::Lengths(call) => in_some_form(&mut rng, call),
        Case::Two(_, pair) => in_two_forms(&mut rng, &mut pair.first, &mut pair.second),
        Case::Forms(_) | Case::Windows(..) | Case::Cuttings(_) => (),
    }
    made
}

/// The case as it is made, most stations in units.
fn in_units(seed: u64, number: u64, size: Size) -> Case {
    let mut rng = Random::new(seed, number);
    let rng = &mut rng;
    let kind = match rng.below(18) {
        13 => Kind::Tiny,
        14 => Kind::Thin,
        15 => Kind::Pieces,
        16 | 17 => Kind::Joints,
        k => KINDS[k],
    };
    match number % 10 {
        0 => Case::Scene(kind, scene_call(rng, kind, size)),
        1 => {
            let call = match rng.once_in(2) {
                true => gauged(rng),
                false => scene_call(rng, kind, size),
            };
            Case::Forms(Box::new(forms_of(rng, call)))
        }
        7 => Case::Windows(kind, Box::new(make_windows(rng, kind, size))),
        9 => Case::Two(kind, Box::new(make_pair(rng, kind, size))),
        8 if rng.once_in(4) => {
            let mut call = scene_call(rng, Kind::Tiny, size);
            beyond_memory(&mut call, rng);
            Case::Lengths(call)
        }
        8 => {
            let kind = rng.pick(&[Kind::Tiny, Kind::Joints, Kind::Pieces, Kind::Empty]);
            let mut all = ends(&scene_call(rng, kind, size));
            let which = (number / 10) as usize % all.len();
            Case::Ends(all.swap_remove(which))
        }
        _ => {
            let (aims, call) = damaged(rng, size);
            Case::Damaged(aims, call)
        }
    }
}

/// Pair of cuttings `number` of the run of `seed`; they are numbered by
/// themselves.
pub fn two_cuttings(seed: u64, number: u64, size: Size) -> Case {
    let mut rng = Random::new(seed.rotate_left(32), number);
    Case::Cuttings(Box::new(make_cuttings(&mut rng, size)))
}

fn scene_call(rng: &mut Random, kind: Kind, size: Size) -> Call {
    let made = make(rng, kind, size);
    let mut call = made.call(&made.loose);
    let any = rng.next() as u32 / 2;
    call.counter = rng.pick(&[0, 1, u32::MAX - 1, any]);
    call
}

/// What differs in any call, each kind once.
fn of_all<const N: usize>(outcomes: [Outcome; N]) -> Vec<Difference> {
    once_each(outcomes.into_iter().flat_map(|o| o.differences))
}

fn once_each(differences: impl Iterator<Item = Difference>) -> Vec<Difference> {
    let mut all: Vec<Difference> = differences.collect();
    all.sort();
    all.dedup();
    all
}

fn answered(outcomes: &[Outcome], case: &Case, tally: &mut Tally) {
    for (outcome, call) in outcomes.iter().zip(case.calls()) {
        tally.answer(outcome, call);
    }
}

/// Puts one case to the library; gives what differs.
pub fn put(
    library: &dyn Library,
    case: &Case,
    noise: &mut Random,
    tally: &mut Tally,
) -> Vec<Difference> {
    *tally.kinds.entry(case.name()).or_default() += 1;
    tally.cases += 1;
    let differences = differing(library, case, noise, tally);
    for &difference in &differences {
        *tally.differences.entry(difference).or_default() += 1;
    }
    tally.failed += u64::from(!differences.is_empty());
    differences
}

fn differing(
    library: &dyn Library,
    case: &Case,
    noise: &mut Random,
    tally: &mut Tally,
) -> Vec<Difference> {
    match case {
        Case::Scene(_, call) | Case::Damaged(_, call) | Case::Ends(call) => {
            let outcome = check(library, call, noise);
            tally.answer(&outcome, call);
            let legal = outcome.number == 0 || !matches!(case, Case::Scene(..));
            assert!(legal, "a made scene is legal: {}", case.name());
            outcome.differences
        }
        Case::Forms(calls) => {
            let outcomes = check_forms(library, calls, noise);
            answered(&outcomes, case, tally);
            of_all(outcomes)
        }
        Case::Lengths(call) => {
            let (number, differences) = check_gate(library, call);
            tally.number(number, call);
            differences
        }
        Case::Two(kind, pair) => {
            let outcomes = check_pair(library, pair, noise);
            let legal = outcomes.iter().all(|outcome| outcome.number == 0);
            assert!(legal, "a made pair is legal: {kind:?}");
            answered(&outcomes, case, tally);
            tally.stations.add_pair([&pair.first, &pair.second]);
            tally.tiles.add_pair(&pair.first);
            of_all(outcomes)
        }
        Case::Windows(kind, windows) => of_windows(library, windows, noise, tally, *kind),
        Case::Cuttings(pair) => of_cuttings(library, pair, noise, tally),
    }
}

fn of_windows(
    library: &dyn Library,
    windows: &Windows,
    noise: &mut Random,
    tally: &mut Tally,
    kind: Kind,
) -> Vec<Difference> {
    let outcomes = check_windows(library, windows, noise);
    for (outcome, calls) in outcomes.iter().zip(&windows.calls) {
        let legal = outcome.tiles.iter().all(|tile| tile.number == 0);
        assert!(legal, "a made window is legal: {kind:?}");
        for (call, tile) in calls.iter().zip(&outcome.tiles) {
            tally.number(0, call);
            tally.maps.add(&tile.lent.lit, call.tile.width);
        }
        tally.windows.add(calls, outcome);
    }
    once_each(outcomes.into_iter().flat_map(|o| o.differences))
}

fn of_cuttings(
    library: &dyn Library,
    pair: &Cuttings,
    noise: &mut Random,
    tally: &mut Tally,
) -> Vec<Difference> {
    let outcomes = check_cuttings(library, pair, noise);
    let [one, other] = pair.patches();
    assert!(same_cover(&one, &other), "a made pair covers the same");
    let lent = outcomes.each_ref().map(|outcome| &outcome.lent);
    tally.cuttings.add(pair, lent);
    of_all(outcomes)
}
