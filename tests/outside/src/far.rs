//! Stations in metres at the ends of question 15 and beyond, and with them a no to
//! another question.

use crate::axes::LEVEL;
use crate::call::Call;
use crate::double::Double;
use crate::doubles::{any, at_the_end, doubles_of, LAST};
use crate::random::Random;
use crate::station::Station::Metres;

/// The station in metres, where it was not.
fn doubles(call: &Call, rng: &mut Random) -> [Double; 3] {
    match call.view.station {
        Metres(doubles) => doubles,
        _ => doubles_of(rng, call.view.eye()),
    }
}

/// One double, now and then another too.
pub fn double_out(call: &mut Call, rng: &mut Random) {
    let mut doubles = doubles(call, rng);
    doubles[rng.below(3)] = at_the_end(rng);
    if rng.once_in(5) {
        doubles[rng.below(3)] = at_the_end(rng);
    }
    call.view.station = Metres(doubles);
}

/// One double of any bits, or all three.
pub fn any_bits(call: &mut Call, rng: &mut Random) {
    let mut doubles = doubles(call, rng);
    let which = rng.below(4);
    for (axis, double) in doubles.iter_mut().enumerate() {
        if which == axis || which == 3 {
            *double = any(rng);
        }
    }
    call.view.station = Metres(doubles);
}

/// The last doubles that question 15 lets pass, the first that it does not, and
/// what is no number, along each axis.
pub fn ends_of_doubles(call: &Call) -> Vec<Call> {
    let eye = call.view.eye().map(|n| Double::of(f64::from(n) / 200.0));
    let sizes = [
        LAST.0,
        LAST.0 + 1,
        Double::of(64.0).0,
        f64::INFINITY.to_bits(),
        f64::NAN.to_bits(),
    ];
    let mut all = Vec::new();
    for axis in 0..3 {
        for bits in sizes.into_iter().flat_map(|size| [size, size | 1 << 63]) {
            let mut doubles = eye;
            doubles[axis] = Double(bits);
            all.push(call.with(&|c| c.view.station = Metres(doubles)));
        }
    }
    all
}

/// A no to 15 and another: only the one asked first may answer.
pub fn doubles_and_another(call: &Call) -> Vec<Call> {
    let others: [&dyn Fn(&mut Call); 11] = [
        &|c| c.scene = c.scene[1..].into(),
        &|c| c.view.width = 0,
        &|c| c.view.height = 513,
        &|c| c.view.lens = 0,
        &|c| c.view.axes.up = LEVEL.forward,
        &|c| c.picture_len += 1,
        &|c| c.counts_len = 0,
        &|c| c.patch_counts_len += 1,
        &|c| c.unlit_len = 0,
        &|c| c.lit_len += 1,
        &|c| c.counter = u32::MAX,
    ];
    let zero = Double(0);
    let out = [Double(LAST.0 + 1), Double::of(f64::NAN)];
    let stations = [[out[0], zero, zero], [zero, zero, out[1]]];
    let mut all = Vec::new();
    for doubles in stations {
        let there = call.with(&|c| c.view.station = Metres(doubles));
        all.extend(others.map(|other| there.with(other)));
    }
    all
}
