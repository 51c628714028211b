//! What stations a run put.

use std::collections::BTreeMap;

use crate::call::Call;
use crate::double::{Double, Whole};
use crate::station::Station;

/// A test of one double, and its name.
type Sort = (&'static str, fn(Double) -> bool);

const SORTS: &[Sort] = &[
    ("just halfway", Double::is_halfway),
    ("next to one of another whole number", is_next_to_another),
    ("0", |d| d.0 == 0),
    ("−0", |d| d.is_zero() && d.is_negative()),
    ("subnormal", |d| d.is_subnormal() && !d.is_zero()),
    ("of 10,000 units", |d| d.units() == Some(10_000)),
    ("of −10,000 units", |d| d.units() == Some(-10_000)),
    ("of 10,001 units or −10,001", |d| {
        matches!(d.whole(), Whole::Number(10_001 | -10_001))
    }),
    ("finite and far beyond", |d| {
        d.is_finite() && d.value().abs() > 1e9
    }),
    ("infinite", |d| !d.is_finite() && !d.is_nan()),
    ("a quiet NaN", |d| d.is_nan() && d.0 >> 51 & 1 == 1),
    ("a signalling NaN", |d| d.is_nan() && d.0 >> 51 & 1 == 0),
];

/// Has the double before it or behind it another whole number?
fn is_next_to_another(double: Double) -> bool {
    let of = |places| double.moved(places).whole();
    // The bits before those of a zero are none of a double beside it.
    !double.is_zero() && double.units().is_some() && (of(1) != of(0) || of(-1) != of(0))
}

#[derive(Default)]
pub struct StationTally {
    pub in_units: u64,
    pub in_metres: u64,
    sorts: [u64; SORTS.len()],
    /// How often both calls of a pair had their station in two forms, and how often
    /// in metres by other doubles.
    pub pairs: [u64; 2],
    /// The answers due to calls in metres.
    pub answers: BTreeMap<u32, u64>,
}

impl StationTally {
    pub fn add(&mut self, call: &Call, due: u32) {
        match call.view.station {
            Station::Units(_) => self.in_units += 1,
            Station::Metres(doubles) => {
                self.in_metres += 1;
                *self.answers.entry(due).or_default() += 1;
                for (times, (_, is_so)) in self.sorts.iter_mut().zip(SORTS) {
                    *times += doubles.into_iter().filter(|double| is_so(*double)).count() as u64;
                }
            }
        }
    }

    pub fn add_pair(&mut self, calls: [&Call; 2]) {
        for (own, new) in self.pairs.iter_mut().zip(two_forms(calls)) {
            *own += new;
        }
    }

    /// Each number with its name.
    pub fn told(&self) -> Vec<(u64, String)> {
        let calls = [
            (self.in_units, "calls in units".to_string()),
            (self.in_metres, "calls in metres".to_string()),
        ];
        let sorts = self.sorts.iter().zip(SORTS);
        let sorts = sorts.map(|(times, (name, _))| (*times, format!("doubles are {name}")));
        let pairs = self.pairs.into_iter().zip(TWO_FORMS);
        let pairs = pairs.map(|(times, name)| (times, format!("pairs {name}")));
        calls.into_iter().chain(sorts).chain(pairs).collect()
    }
}

/// What two calls from one station can have.
pub const TWO_FORMS: [&str; 2] = [
    "have their station in both forms",
    "have it in metres by other doubles",
];

/// Is the one station in two forms, and is it in metres by other doubles?
pub fn two_forms([one, other]: [&Call; 2]) -> [u64; 2] {
    let [one, other] = [one, other].map(|call| call.view.station);
    let unlike = one.is_in_metres() != other.is_in_metres();
    [unlike, !unlike && one != other].map(u64::from)
}
