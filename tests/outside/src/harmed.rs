//! Accepted scenes, harmed: what the gate must turn away, or let pass where a
//! harm did not hit.

use crate::call::Call;
use crate::damage::LOOSE;
use crate::gate::Gate;
use crate::generate::{make, Kind, Size};
use crate::header::BYTES;
use crate::outer::{any_window, CALL};
use crate::random::Random;
use crate::stored::STORED;

/// The questions aimed at, those with many rules more often; 0 is any byte.
const AIMS: &[u32] = &[
    0, 1, 1, 2, 2, 2, 3, 4, 5, 5, 6, 6, 6, 6, 7, 7, 8, 8, 8, 9, 9, 9, 9, 15, 15, 15, 15, 10, 10,
    10, 10, 14, 14, 14, 11, 11, 11, 11, 12, 12,
];

/// The question asked next, the first behind the last.
fn next(aim: u32) -> u32 {
    let asked = Gate::of_the_paper().numbers();
    let place = asked.iter().position(|&number| number == aim);
    asked[place.map_or(0, |place| (place + 1) % asked.len())]
}

/// Small scenes, or now and then one of the others.
fn kind_to_harm(rng: &mut Random) -> Kind {
    let kinds = [
        Kind::Tiny,
        Kind::Grid,
        Kind::Level,
        Kind::Medium,
        Kind::Far,
        Kind::Pieces,
        Kind::Joints,
    ];
    let rare = [
        Kind::Empty,
        Kind::Lining,
        Kind::Thin,
        Kind::Comb,
        Kind::Stack,
    ];
    match rng.once_in(8) {
        true => rng.pick(&rare),
        false => rng.pick(&kinds),
    }
}

/// An accepted scene, harmed once or several times, and the questions aimed at.
pub fn damaged(rng: &mut Random, size: Size) -> (Vec<u32>, Call) {
    let kind = kind_to_harm(rng);
    let made = make(rng, kind, size);
    let mut aims = vec![rng.pick(AIMS)];
    while rng.once_in(3) {
        // Often the next question, which must not be the one that answers.
        let (next, any) = (next(aims[0]), rng.pick(AIMS));
        aims.push(rng.pick(&[next, any]));
    }
    rng.shuffle(&mut aims);
    let mut loose = made.loose;
    for &aim in &aims {
        one(LOOSE, aim, rng, |harm, rng| harm(&mut loose, rng));
    }
    let mut scene = loose.pack();
    for &aim in &aims {
        one(STORED, aim, rng, |harm, rng| harm(&mut scene, rng));
    }
    let mut bytes = scene.write();
    for &aim in &aims {
        one(BYTES, aim, rng, |harm, rng| harm(&mut bytes, rng));
    }
    let mut call = Call::of_tile(bytes, made.view, made.tile);
    if rng.once_in(20) {
        let (view, tile) = any_window(rng);
        call = Call::of_tile(call.scene.into_vec(), view, tile);
    }
    for &aim in &aims {
        one(CALL, aim, rng, |harm, rng| harm(&mut call, rng));
    }
    (aims, call)
}

/// One of the harms aimed at a question, if there are any. Where a question
/// has harms of two sorts, either sort may strike, or both.
fn one<H: Copy>(
    harms: &[(u32, H)],
    aim: u32,
    rng: &mut Random,
    strike: impl FnOnce(H, &mut Random),
) {
    let aimed: Vec<H> = harms.iter().filter(|h| h.0 == aim).map(|h| h.1).collect();
    if !aimed.is_empty() && (aim != 6 || rng.once_in(2)) {
        let harm = rng.pick(&aimed);
        strike(harm, rng);
    }
}
