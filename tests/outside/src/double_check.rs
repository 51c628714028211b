//! The whole number of a double by other ways, and the gauge by which stations
//! are told.

use std::cmp::Ordering;

use crate::call::Call;
use crate::double::{Double, Whole};
use crate::doubles::{any, halves, LAST};
use crate::gauge::Gauge;
use crate::random::Random;
use crate::station::Station::{Metres, Units};
use crate::survey::survey;
use crate::vector::Point;

/// Whole numbers are counted up to here, some way beyond ±10,000.
const COUNTED: i128 = 20_000;

/// The whole number from the decimal digits, all of them, of a finite double's
/// size: written out, doubled, the point moved two places on, then rounded by
/// what stands behind it. A whole number of many digits is left out.
fn by_digits(double: Double) -> Option<i128> {
    // No double has more digits behind the point, and few have as many.
    let places = if double.value().abs() < 1e-9 {
        1_074
    } else {
        90
    };
    let written = format!("{:.places$}", double.value().abs());
    let (before, behind) = written.split_once('.')?;
    let moved = [before, &behind[..2]].concat();
    let behind = doubled(&behind[2..]);
    let carry = i128::from(behind[0]);
    let whole = 2 * moved.parse::<i128>().ok().filter(|n| *n < 1 << 100)? + carry;
    let half = std::iter::once(5).chain(std::iter::repeat(0));
    let half: Vec<u8> = half.take(behind.len() - 1).collect();
    let up = match behind[1..].cmp(&half[..]) {
        Ordering::Less => 0,
        Ordering::Greater => 1,
        Ordering::Equal => whole % 2,
    };
    Some((whole + up) * if double.is_negative() { -1 } else { 1 })
}

/// Twice a number of digits, one digit longer.
fn doubled(digits: &str) -> Vec<u8> {
    let mut twice = vec![0];
    twice.extend(digits.bytes().map(|digit| 2 * (digit - b'0')));
    for at in (1..twice.len()).rev() {
        twice[at - 1] += twice[at] / 10;
        twice[at] %= 10;
    }
    twice
}

/// The same by counting: as many as there are halfway points, 0.5 and on, that
/// the size has passed; one that it stands on is passed to an even number.
fn by_counting(double: Double) -> i128 {
    let is_passed = |n: i128| match compared(double, 2 * n + 1) {
        Ordering::Less => false,
        Ordering::Greater => true,
        Ordering::Equal => (n + 1) % 2 == 0,
    };
    // They are passed in their order, so the first that is not can be searched.
    let (mut low, mut high) = (0, COUNTED);
    while low < high {
        let middle = (low + high) / 2;
        match is_passed(middle) {
            true => low = middle + 1,
            false => high = middle,
        }
    }
    low * if double.is_negative() { -1 } else { 1 }
}

/// A finite double's size times 400 against an odd number, by the places of
/// their leading digits, and where these agree by all digits.
fn compared(double: Double, odd: i128) -> Ordering {
    let field = (double.0 >> 52 & 0x7ff) as i32;
    let fraction = u128::from(double.0 % (1 << 52));
    let (digits, place) = match field {
        0 => (fraction, -1_074),
        _ => (fraction + (1 << 52), field - 1_075),
    };
    if digits == 0 {
        return Ordering::Less;
    }
    // Both with their leading digit in front.
    let front = |n: u128| (128 - n.leading_zeros() as i32, n << n.leading_zeros());
    let (length, own) = front(400 * digits);
    let (other_length, other) = front(odd as u128);
    (length + place, own).cmp(&(other_length, other))
}

fn agrees(double: Double) -> bool {
    let whole = double.whole();
    let counted = by_counting(double);
    match whole {
        Whole::NotFinite => !double.value().is_finite(),
        Whole::Beyond => {
            counted.abs() == COUNTED && by_digits(double).is_none_or(|n| n.abs() > COUNTED)
        }
        Whole::Number(n) => by_digits(double) == Some(n) && counted == n.clamp(-COUNTED, COUNTED),
    }
}

/// Every whole number and halfway point within reach with the doubles beside it,
/// every exponent, and any bits.
pub fn tried(seed: u64, random: u64) -> Vec<Double> {
    let mut all = vec![Double(0), Double(1), LAST, LAST.moved(1)];
    for n in 0..=20_010 {
        all.extend(
            [-2, -1, 0, 1, 2].map(|places| Double(halves(n).0.saturating_add_signed(places))),
        );
    }
    for field in 0..=0x7ff {
        let fractions = [0, 1, 1 << 51, (1 << 52) - 1];
        all.extend(fractions.map(|fraction| Double(field << 52 | fraction)));
    }
    let mut rng = Random::new(seed, 0);
    for _ in 0..random {
        // Of all doubles most are far beyond or next to 0; so of a second kind.
        let near = Double(any(&mut rng).0 % (LAST.0 - halves(1).0) + halves(1).0);
        all.extend([any(&mut rng), near]);
    }
    let about = all
        .clone()
        .into_iter()
        .map(|double| Double(double.0 ^ 1 << 63));
    all.extend(about);
    all
}

/// The gauge shows what is told of it, and from any station one unit away
/// something else; an eye at two ends of the range is let off, as its wall is cut
/// there.
fn gauge_tells(eye: Point) -> bool {
    let gauge = Gauge::of(eye);
    let own = gauge.done();
    let from = |station| {
        let mut call: Call = gauge.call();
        call.view.station = station;
        survey(&call)
    };
    let others = (0..27).map(|k| [k % 3, k / 3 % 3, k / 9].map(|n: i16| n - 1));
    let others = others.filter(|step| *step != [0; 3]);
    let mut others = others.map(|step| [0, 1, 2].map(|k| eye[k] + step[k]));
    let is_end = |eye: &Point| eye.iter().filter(|n| n.abs() > 9_990).count() > 1;
    from(Units(eye)).as_ref() == Ok(&own)
        && from(Metres(eye.map(|n| halves(2 * i64::from(n))))).as_ref() == Ok(&own)
        && (is_end(&eye) || others.all(|other| from(Units(other)) != Ok(own.clone())))
}

/// Gives how many checks fail.
pub fn doubles_hold(seed: u64, random: u64) -> usize {
    let all = tried(seed, random);
    let (mut failed, mut halfway) = (0, 0);
    for &double in &all {
        halfway += usize::from(double.is_halfway());
        if !agrees(double) {
            failed += 1;
            println!("FAILS {double:?}: {:?}", double.whole());
        }
    }
    println!(
        "doubles: {} tried, {halfway} halfway, {failed} failed",
        all.len()
    );
    let mut rng = Random::new(seed, 1);
    let ends = [0, 1, -1, 12, 38, 9_999, 10_000, -10_000];
    let blind = (0..300).filter(|_| {
        let any = [0; 3].map(|_| rng.between(-10_000, 10_000) as i16);
        let eye = any.map(|n| if rng.once_in(3) { rng.pick(&ends) } else { n });
        !gauge_tells(eye)
    });
    let blind = blind.count();
    println!("gauges: 300 tried, {blind} failed");
    failed + blind + usize::from(halfway == 0)
}
