//! A double by its bits: its exact value, and that value in units.
//!
//! Whole numbers only: nothing here is rounded but where the words say so.

use std::cmp::Ordering;
use std::fmt;
use std::str::FromStr;

/// The bits of a double: a sign, eleven of the exponent, 52 of the fraction. So
/// held, two doubles are equal when all their bits are, a NaN's and a zero's too.
#[derive(Clone, Copy, PartialEq, Eq)]
pub struct Double(pub u64);

const FRACTION: u64 = (1 << 52) - 1;
const EXPONENT: u64 = 0x7ff;

/// "One length unit is 5 mm.": so many are a metre.
const UNITS: u128 = 200;
/// "its whole number leaves ±10,000".
pub const REACH: i128 = 10_000;

/// A finite double is digits × 2^exponent, below 0 where it says so.
struct Exact {
    is_negative: bool,
    digits: u64,
    exponent: i32,
}

/// What a double is in units.
#[derive(Clone, Copy, Debug, PartialEq, Eq)]
pub enum Whole {
    /// An infinity, or a NaN.
    NotFinite,
    /// A whole number too far from 0 to be worked out here, far beyond all reach.
    Beyond,
    Number(i128),
}

impl Double {
    pub fn of(value: f64) -> Double {
        Double(value.to_bits())
    }

    pub fn value(self) -> f64 {
        f64::from_bits(self.0)
    }

    fn exponent_field(self) -> u64 {
        self.0 >> 52 & EXPONENT
    }

    pub fn is_negative(self) -> bool {
        self.0 >> 63 == 1
    }

    pub fn is_finite(self) -> bool {
        self.exponent_field() != EXPONENT
    }

    pub fn is_nan(self) -> bool {
        !self.is_finite() && self.0 & FRACTION != 0
    }

    /// 0, or a double without a leading digit.
    pub fn is_subnormal(self) -> bool {
        self.exponent_field() == 0
    }

    pub fn is_zero(self) -> bool {
        self.0 << 1 == 0
    }

    /// A double as many places from this one as told, away from 0 or toward it;
    /// those of one sign stand in the order of their bits.
    pub fn moved(self, places: i64) -> Double {
        Double(self.0.wrapping_add_signed(places))
    }

    fn exact(self) -> Option<Exact> {
        let fraction = self.0 & FRACTION;
        let (digits, exponent) = match self.exponent_field() {
            EXPONENT => return None,
            0 => (fraction, -1_074),
            field => (fraction | 1 << 52, field as i32 - 1_075),
        };
        Some(Exact {
            is_negative: self.is_negative(),
            digits,
            exponent,
        })
    }

    /// "Each becomes the whole number nearest to its exact value times 200,
    /// halfway to the even one." Nearest and even are so on both sides of 0: the
    /// sign is put back at the end, and "Both zeros give 0."
    pub fn whole(self) -> Whole {
        let Some(exact) = self.exact() else {
            return Whole::NotFinite;
        };
        let times_200 = UNITS * u128::from(exact.digits);
        let size = match exact.exponent {
            // 200 × 2^53 is below 2^61, and over 2^64 not halfway to 1.
            ..=-64 => 0,
            -63..=0 => nearest(times_200, 1 << -exact.exponent),
            // Its leading digit alone is 2^53 or more.
            1.. => return Whole::Beyond,
        };
        Whole::Number(match exact.is_negative {
            true => -(size as i128),
            false => size as i128,
        })
    }

    /// The whole number, where there is one within reach.
    pub fn units(self) -> Option<i16> {
        match self.whole() {
            Whole::Number(n) if (-REACH..=REACH).contains(&n) => Some(n as i16),
            _ => None,
        }
    }

    /// Is the exact value times 200 just halfway between two whole numbers? Then
    /// twice of it is odd; behind 63 places twice of it is below 1.
    pub fn is_halfway(self) -> bool {
        self.exact().is_some_and(|exact| {
            let twice = 2 * UNITS * u128::from(exact.digits);
            let is_odd = |under: u128| twice % (2 * under) == under;
            (-63..=0).contains(&exact.exponent) && is_odd(1 << -exact.exponent)
        })
    }
}

/// The whole number nearest to over / under, halfway to the even one: of the
/// two between which the fraction lies.
fn nearest(over: u128, under: u128) -> u128 {
    let below = over / under;
    let above = below + 1;
    let (down, up) = (over - below * under, above * under - over);
    match (down.cmp(&up), below % 2) {
        (Ordering::Less, _) => below,
        (Ordering::Greater, _) => above,
        (Ordering::Equal, 0) => below,
        (Ordering::Equal, _) => above,
    }
}

/// "bits of doubles are 16 hex digits, the most significant first".
impl FromStr for Double {
    type Err = ();

    fn from_str(word: &str) -> Result<Double, ()> {
        let is_hex = word.len() == 16 && word.bytes().all(|digit| digit.is_ascii_hexdigit());
        let bits = u64::from_str_radix(word, 16);
        bits.ok().filter(|_| is_hex).map(Double).ok_or(())
    }
}

impl fmt::Debug for Double {
    fn fmt(&self, f: &mut fmt::Formatter) -> fmt::Result {
        write!(f, "{:016x} ({:e})", self.0, self.value())
    }
}
