//! The form of a station: calls in units put in metres, and calls that differ
//! in nothing else.

use crate::call::Call;
use crate::doubles::station_of;
use crate::gate::in_range;
use crate::gauge::Gauge;
use crate::outer::CALL;
use crate::random::Random;
use crate::station::Station::Units;
use crate::vector::Point;

/// "The picture is that of the whole-number station.": a call in units, and two
/// in metres with doubles of their own.
pub type Forms = [Call; 3];

/// The forms of a call, now and then with something of it harmed.
pub fn forms_of(rng: &mut Random, mut call: Call) -> Forms {
    let eye = call.view.eye();
    if rng.once_in(5) {
        let harm = rng.pick(CALL).1;
        harm(&mut call, rng);
    }
    let stations = [Units(eye), station_of(rng, eye), station_of(rng, eye)];
    stations.map(|station| call.with(&|c| c.view.station = station))
}

/// Puts every other station in metres that can be.
pub fn in_some_form(rng: &mut Random, call: &mut Call) {
    let eye = call.view.eye();
    if call.view.station == Units(eye) && in_range(&eye) && rng.once_in(2) {
        call.view.station = station_of(rng, eye);
    }
}

/// Two calls from one station: in units both, in one form each, in metres with
/// the same doubles, or with others.
pub fn in_two_forms(rng: &mut Random, first: &mut Call, second: &mut Call) {
    let eye = first.view.eye();
    let [one, other] = [0, 1].map(|_| station_of(rng, eye));
    let forms = [
        [Units(eye); 2],
        [Units(eye), one],
        [one, Units(eye)],
        [one; 2],
        [one, other],
    ];
    [first.view.station, second.view.station] = rng.pick(&forms);
}

/// A gauge, its eye often next to a point halfway, or at the ends.
pub fn gauged(rng: &mut Random) -> Call {
    let mut part = || match rng.below(8) {
        0..=3 => next_to_halfway(rng.between(0, 399) as i16) * rng.pick(&[-1, 1]),
        4 => 0,
        5 => rng.pick(&[0, 1, -1, 9_999, 10_000, -10_000]),
        _ => rng.between(-10_000, 10_000) as i16,
    };
    let eye: Point = [part(), part(), part()];
    Gauge::of(eye).call()
}

/// The whole number below an odd multiple of 1/16 metre, or the one above where
/// that is even.
fn next_to_halfway(k: i16) -> i16 {
    let below = 12 + 25 * k;
    below + below % 2
}
