//! Doubles to try: of a whole number, at the ends of what is nearest to it, and
//! such as question 15 refuses.
//!
//! What is drawn by arithmetic on doubles is held to the whole number wanted.

use crate::double::Double;
use crate::random::Random;
use crate::station::Station;
use crate::vector::Point;

/// The greatest double whose whole number is 10,000.
pub const LAST: Double = Double(0x4049_0051_eb85_1eb8);
const INFINITE: u64 = 0x7ff0_0000_0000_0000;
const QUIET: u64 = 0x0008_0000_0000_0000;
const SIGN: u64 = 1 << 63;

/// The double next to so many halves of a unit; just so many where they are 25
/// times a number, as 25 halves are 1/16 metre.
pub fn halves(n: i64) -> Double {
    Double::of(n as f64 / 400.0)
}

/// A double whose whole number is n.
pub fn of_units(rng: &mut Random, n: i16) -> Double {
    if n == 0 && rng.once_in(2) {
        return near_zero(rng);
    }
    let twice = 2 * i64::from(n);
    let base = match rng.below(8) {
        0 | 1 => halves(twice),
        2..=5 => halves(twice + rng.pick(&[-1, 1])),
        _ => Double::of((twice as f64 + rng.between(-1_000, 1_000) as f64 / 1_000.0) / 400.0),
    };
    let reach = rng.pick(&[0, 1, 1, 3, 9]);
    let near = (-reach..=reach).map(|places| base.moved(places));
    let of_n: Vec<Double> = near.filter(|near| near.units() == Some(n)).collect();
    match of_n.is_empty() {
        true => halves(twice),
        false => rng.pick(&of_n),
    }
}

/// Zeros, subnormals, and what is below half a unit.
fn near_zero(rng: &mut Random) -> Double {
    let bits = match rng.below(5) {
        0 | 1 => 0,
        2 => rng.next() >> rng.between(12, 63),
        3 => rng.pick(&[1, (1 << 52) - 1, 1 << 52]),
        _ => rng.next() % halves(1).0,
    };
    Double(bits | rng.pick(&[0, SIGN]))
}

/// Three doubles that are this station in units.
pub fn doubles_of(rng: &mut Random, eye: Point) -> [Double; 3] {
    eye.map(|n| of_units(rng, n))
}

/// A station in metres that is this one in units.
pub fn station_of(rng: &mut Random, eye: Point) -> Station {
    Station::Metres(doubles_of(rng, eye))
}

/// A double that question 15 refuses, or the last one that it lets pass.
pub fn at_the_end(rng: &mut Random) -> Double {
    let size = match rng.below(9) {
        0 => LAST.0,
        1 => LAST.0 + 1,
        2 => LAST.0 + rng.below(1 << 20) as u64,
        3 => wrapping(rng).0,
        4 => Double::of(rng.pick(&[50.005, 51.0, 63.99, 64.0, 1e300, f64::MAX])).0,
        5 => LAST.0 + rng.next() % (INFINITE - LAST.0),
        6 => INFINITE,
        7 => INFINITE | QUIET | rng.next() >> rng.between(12, 63),
        _ => INFINITE | (rng.next() >> rng.between(13, 63)).max(1),
    };
    Double(size | rng.pick(&[0, SIGN]))
}

/// So many units that they are few again in 16, 32 or 64 bits.
fn wrapping(rng: &mut Random) -> Double {
    let turns = rng.between(1, 3) as f64;
    let bits = rng.pick(&[65_536.0, 4_294_967_296.0, 18_446_744_073_709_551_616.0]);
    Double::of((turns * bits + rng.between(-40, 40) as f64) / 200.0)
}

/// Any bits at all.
pub fn any(rng: &mut Random) -> Double {
    Double(rng.next())
}
