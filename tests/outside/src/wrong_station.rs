//! Stations in metres turned into units in ways that are right but for one thing,
//! and gates that are right but for question 15; the cases must find each.

use crate::double::{Double, Whole, REACH};
use crate::doubles::LAST;
use crate::gate::{in_range, station_turns, Gate};
use crate::vector::Point;
use crate::wrong_gate::{asked, moved, place, swapped, without, WrongGate};

/// The units of three doubles; None where they are refused.
pub type Turn = fn([Double; 3]) -> Option<Point>;

/// Another whole number within reach.
pub const ROUNDINGS: &[(&str, Turn)] = &[
    ("a product of doubles", |d| {
        by_value(d, |x| (x * 200.0).round_ties_even())
    }),
    ("a quotient of doubles", |d| {
        by_value(d, |x| (x / 0.005).round_ties_even())
    }),
    ("a product of singles", |d| {
        by_value(d, |x| f64::from(x as f32 * 200.0).round_ties_even())
    }),
    ("half added, and what is behind the point dropped", |d| {
        by_value(d, |x| (x * 200.0 + 0.5).trunc())
    }),
    ("half added, and the whole number below", |d| {
        by_value(d, |x| (x * 200.0 + 0.5).floor())
    }),
    ("what is behind the point dropped", |d| {
        by_value(d, |x| (x * 200.0).trunc())
    }),
    ("the whole number below", |d| {
        by_value(d, |x| (x * 200.0).floor())
    }),
    ("the whole number above", |d| {
        by_value(d, |x| (x * 200.0).ceil())
    }),
    ("halfway away from 0", |d| {
        at_halfway(d, |[low, high]| if low < 0 { low } else { high })
    }),
    ("halfway toward 0", |d| {
        at_halfway(d, |[low, high]| if low < 0 { high } else { low })
    }),
    ("halfway up", |d| at_halfway(d, |[_, high]| high)),
    ("halfway down", |d| at_halfway(d, |[low, _]| low)),
    ("halfway to the odd one", |d| {
        at_halfway(d, |[low, high]| if low % 2 == 0 { high } else { low })
    }),
    ("a hundred units a metre", |d| {
        by_value(d, |x| (x * 100.0).round_ties_even())
    }),
    ("no sign", |d| each(d, |d| Double(d.0 << 1 >> 1).units())),
    ("the sign turned about", |d| {
        each(d, |d| Double(d.0 ^ 1 << 63).units())
    }),
    ("y taken twice", |[x, y, _]| each([x, y, y], Double::units)),
    ("z for x", |[_, y, z]| each([z, y, z], Double::units)),
    ("x and y exchanged", |[x, y, z]| {
        each([y, x, z], Double::units)
    }),
    ("x alone", |[x, _, _]| Some([x.units()?, 0, 0])),
];

/// Refused what passes, or passed what is refused.
pub const RANGES: &[(&str, Turn)] = &[
    ("15: 50 metres asked of the double", |d| {
        each(d, |d| (d.value().abs() <= 50.0).then(|| d.units())?)
    }),
    ("15: below 50.0025 asked of the double", |d| {
        each(d, |d| {
            (d.value().abs() < LAST.value()).then(|| d.units())?
        })
    }),
    ("15: 10,001 passes", |d| {
        each(d, |d| within(d, -REACH, REACH + 1))
    }),
    ("15: −10,001 passes", |d| {
        each(d, |d| within(d, -REACH - 1, REACH))
    }),
    ("15: 10,000 refused", |d| {
        each(d, |d| within(d, -REACH, REACH - 1))
    }),
    ("15: −10,000 refused", |d| {
        each(d, |d| within(d, 1 - REACH, REACH))
    }),
    ("15: a whole number in 16 bits", |d| {
        each(d, |d| in_bits(d, |n| n as i16 as i128))
    }),
    ("15: a whole number in 32 bits", |d| {
        each(d, |d| in_bits(d, |n| n as i32 as i128))
    }),
    ("15: NaN taken for 0", |d| {
        each(d, |d| if d.is_nan() { Some(0) } else { d.units() })
    }),
    ("15: only quiet NaNs refused", |d| {
        each(d, |d| match d.is_nan() && d.0 >> 51 & 1 == 0 {
            true => Some(0),
            false => d.units(),
        })
    }),
    ("15: a NaN with a sign passes", |d| {
        each(d, |d| match d.is_nan() && d.is_negative() {
            true => Some(0),
            false => d.units(),
        })
    }),
    ("15: infinities brought to the ends", |d| {
        each(d, |d| match !d.is_finite() && !d.is_nan() {
            true => Some(if d.is_negative() { -10_000 } else { 10_000 }),
            false => d.units(),
        })
    }),
    ("15: an infinity passes below", |d| {
        each(d, |d| match d.0 == f64::NEG_INFINITY.to_bits() {
            true => Some(0),
            false => d.units(),
        })
    }),
    ("15: far doubles brought to the ends", |d| {
        each(d, |d| match d.is_finite() {
            true => d
                .units()
                .or(Some(if d.is_negative() { -10_000 } else { 10_000 })),
            false => None,
        })
    }),
    ("15: far doubles taken for 0", |d| {
        each(d, |d| match d.whole() == Whole::Beyond {
            true => Some(0),
            false => d.units(),
        })
    }),
    ("15: −0 refused", |d| {
        each(d, |d| (d.0 != 1 << 63).then(|| d.units())?)
    }),
    ("15: subnormals refused", |d| {
        each(d, |d| {
            (!d.is_subnormal() || d.is_zero()).then(|| d.units())?
        })
    }),
    ("15: only x looked at", |[x, y, z]| {
        x.units()?;
        Some([x, y, z].map(|d| d.units().unwrap_or(0)))
    }),
    ("15: x unseen", |d| unseen(d, 0)),
    ("15: y unseen", |d| unseen(d, 1)),
    ("15: z unseen", |d| unseen(d, 2)),
    ("15: only where all three are out", |d| {
        let units = d.map(Double::units);
        (units != [None; 3]).then_some(units.map(|n| n.unwrap_or(0)))
    }),
];

pub const WRONG_STATIONS: &[WrongGate] = &[
    ("15: left out", || without(15)),
    ("15: asked of units", || {
        asked(15, |c, s| station_turns(c, s) && in_range(&c.view.eye()))
    }),
    ("15: answered as 10", || {
        let mut gate = Gate::of_the_paper();
        let at = place(&gate, 15);
        gate.questions[at].0 = 10;
        gate
    }),
    ("15 after 10", || swapped(15)),
    ("15 after 14", || moved(15, 14)),
    ("15 after all", || moved(15, 12)),
    ("15 before 9", || moved(15, 9)),
    ("15 before all but 1 and 2", || moved(15, 3)),
];

fn each(doubles: [Double; 3], units: impl Fn(Double) -> Option<i16>) -> Option<Point> {
    let [x, y, z] = doubles.map(units);
    Some([x?, y?, z?])
}

/// By arithmetic on doubles; refused as is right, what is beyond reach brought back.
fn by_value(doubles: [Double; 3], rounded: fn(f64) -> f64) -> Option<Point> {
    each(doubles, |d| {
        d.units()?;
        Some(rounded(d.value()).clamp(-10_000.0, 10_000.0) as i16)
    })
}

/// Right, but for another choice of the two whole numbers beside a point halfway.
fn at_halfway(doubles: [Double; 3], choice: fn([i16; 2]) -> i16) -> Option<Point> {
    each(doubles, |d| {
        let right = d.units()?;
        // A whole number where the double is halfway.
        let twice = (d.value() * 400.0) as i32;
        let beside = [twice - 1, twice + 1].map(|n| (n / 2) as i16);
        Some(if d.is_halfway() {
            choice(beside)
        } else {
            right
        })
    })
}

fn within(double: Double, low: i128, high: i128) -> Option<i16> {
    match double.whole() {
        Whole::Number(n) if (low..=high).contains(&n) => Some(n as i16),
        _ => None,
    }
}

fn in_bits(double: Double, cut: fn(i128) -> i128) -> Option<i16> {
    match double.whole() {
        Whole::Number(n) if in_range(&[cut(n).clamp(-20_000, 20_000) as i16; 3]) => {
            Some(cut(n) as i16)
        }
        _ => None,
    }
}

/// One double is taken for 0 where it should be refused.
fn unseen(doubles: [Double; 3], axis: usize) -> Option<Point> {
    let mut units = doubles.map(Double::units);
    units[axis] = units[axis].or(Some(0));
    let [x, y, z] = units;
    Some([x?, y?, z?])
}
