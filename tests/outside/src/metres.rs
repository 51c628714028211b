//! Stations in metres, with the pictures and answers due.

use crate::call::{Call, View};
use crate::double::Double;
use crate::doubles::halves;
use crate::gauge::Gauge;
use crate::metres_order::of_order;
use crate::station::Station::{self, Metres};
use crate::stations::{s, VIEW};
use crate::survey::Due;
use crate::trial::{refused, shows, Trial};

/// Doubles by their bits, and their whole numbers.
const NUMBERS: &[(u64, i16)] = &[
    // "So 0.0625 gives 12 and 0.1875 gives 38."
    (0x3fb0_0000_0000_0000, 12),
    (0x3fc8_0000_0000_0000, 38),
    (0xbfb0_0000_0000_0000, -12),
    (0xbfc8_0000_0000_0000, -38),
    // "Both zeros give 0."
    (0, 0),
    (0x8000_0000_0000_0000, 0),
    // The least and the greatest subnormal, and what follows it.
    (1, 0),
    (0x800f_ffff_ffff_ffff, 0),
    (0x0010_0000_0000_0000, 0),
    // 0.0025, 0.0075 and 0.0125: just above, just below and just above halfway,
    // where a product of doubles is halfway.
    (0x3f64_7ae1_47ae_147b, 1),
    (0x3f64_7ae1_47ae_147a, 0),
    (0x3f7e_b851_eb85_1eb8, 1),
    (0x3f7e_b851_eb85_1eb9, 2),
    (0x3f89_9999_9999_999a, 3),
    (0x3f89_9999_9999_9999, 2),
    (0xbf64_7ae1_47ae_147b, -1),
    (0xbf64_7ae1_47ae_147a, 0),
    // 0.0625 and 0.1875 with the doubles next to them.
    (0x3faf_ffff_ffff_ffff, 12),
    (0x3fb0_0000_0000_0001, 13),
    (0x3fc7_ffff_ffff_ffff, 37),
    (0x3fc8_0000_0000_0001, 38),
    // 49.9375 is 9,987.5 units.
    (0x4048_f800_0000_0000, 9_988),
    (0x4048_f7ff_ffff_ffff, 9_987),
    (0xc048_f800_0000_0000, -9_988),
    // 50, and 50.0025, which is next to 10,000.5 units and below.
    (0x4049_0000_0000_0000, 10_000),
    (0x4049_0051_eb85_1eb8, 10_000),
    (0xc049_0051_eb85_1eb8, -10_000),
];

/// Doubles that question 15 refuses.
const REFUSED: &[u64] = &[
    // The next after 50.0025, 50.005, 64, the greatest.
    0x4049_0051_eb85_1eb9,
    0xc049_0051_eb85_1eb9,
    0x4049_00a3_d70a_3d71,
    0x4050_0000_0000_0000,
    0xc050_0000_0000_0000,
    0x7fef_ffff_ffff_ffff,
    // 2^16, 2^32 and 2^64 units, or next to them.
    0x4074_7ae1_47ae_147b,
    0x4174_7ae1_47ae_147b,
    0x4374_7ae1_47ae_147b,
    // The infinities; NaNs quiet and signalling, with a payload and a sign.
    0x7ff0_0000_0000_0000,
    0xfff0_0000_0000_0000,
    0x7ff8_0000_0000_0000,
    0xfff8_0000_0000_0000,
    0x7ff0_0000_0000_0001,
    0xfff0_0000_0000_0001,
    0x7ff7_ffff_ffff_ffff,
    0xffff_ffff_ffff_ffff,
];

pub fn metres() -> Vec<Trial> {
    let mut all = of_numbers();
    all.extend(of_halves());
    all.extend(of_refused());
    all.extend(of_s());
    all.extend(of_order());
    all
}

/// Three doubles, one of them this.
fn along(axis: usize, double: Double) -> Station {
    let mut doubles = [Double(0); 3];
    doubles[axis] = double;
    Metres(doubles)
}

/// The gauge of a whole number, from a double that is due to give it.
fn gauged(axis: usize, double: Double, n: i16) -> Trial {
    let mut eye = [0; 3];
    eye[axis] = n;
    let gauge = Gauge::of(eye);
    let mut call = gauge.call();
    call.view.station = along(axis, double);
    Trial {
        name: format!("{double:?} along axis {axis}"),
        call,
        due: Due {
            result: Ok(gauge.done()),
            counter: 1,
        },
    }
}

/// What is due of any double along an axis.
pub fn due(axis: usize, double: Double) -> Trial {
    match double.units() {
        Some(n) => gauged(axis, double, n),
        None => refused_along(axis, double),
    }
}

fn refused_along(axis: usize, double: Double) -> Trial {
    let name = format!("{double:?} along axis {axis}");
    asked(&name, along(axis, double), 15, |_| ())
}

fn of_numbers() -> Vec<Trial> {
    let numbers = NUMBERS.iter();
    numbers
        .flat_map(|&(bits, n)| [0, 1, 2].map(|axis| gauged(axis, Double(bits), n)))
        .collect()
}

/// Every 1/16 metre that is halfway: 25 halves of a unit, 75, and on. Of 12 and 13
/// units it is 12, of 37 and 38 it is 38.
fn of_halves() -> Vec<Trial> {
    let odd = (0..400i16).map(|k| (25 * (2 * k + 1), 12 + 25 * k + k % 2));
    odd.flat_map(|(many, n)| {
        let axis = usize::from(many as u16 / 50) % 3;
        let double = halves(i64::from(many));
        let about = Double(double.0 | 1 << 63);
        [gauged(axis, double, n), gauged(axis, about, -n)]
    })
    .collect()
}

fn of_refused() -> Vec<Trial> {
    let refused = REFUSED.iter();
    refused
        .flat_map(|&bits| [0, 1, 2].map(|axis| refused_along(axis, Double(bits))))
        .collect()
}

/// S from a station, refused with a number for what is changed besides.
pub fn asked(name: &str, station: Station, number: u32, change: impl Fn(&mut Call)) -> Trial {
    let mut call = Call::new(s(50).write(), View { station, ..VIEW });
    change(&mut call);
    refused(name, call, number)
}

fn of_s() -> Vec<Trial> {
    let rows = "0000 0550 0550 0000";
    let blank = "0000 0000 0000 0000";
    [
        ("S, at 0", [0.0, 0.0, 0.0], rows),
        ("S, at the other 0", [-0.0, -0.0, -0.0], rows),
        // 12 units to the right: the lines end at −63, −13, 37 and 87.
        ("S, 0.0625 to the right", [0.0625, 0.0, 0.0], rows),
        (
            "S, 0.1875 to the right",
            [0.1875, 0.0, 0.0],
            "0000 5500 5500 0000",
        ),
        ("S, 0.1875 up", [0.0, 0.0, 0.1875], "0000 0000 0550 0550"),
        ("S, in its plane", [0.0, 0.5, 0.0], blank),
        ("S, beyond", [0.0, 1.0, 0.0], blank),
    ]
    .map(|(name, metres, rows)| {
        let station = Station::metres(metres);
        shows(name, &s(50), View { station, ..VIEW }, rows)
    })
    .into()
}
