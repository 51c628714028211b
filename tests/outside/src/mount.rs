//! How the camera stands on its mount: vectors that question 14 lets pass.
//!
//! Most have small parts, so that sight lines often run along edges and
//! through corners.

use crate::axes::{Axes, LEVEL};
use crate::polygon::divisor;
use crate::random::Random;
use crate::vector::Point;

/// "each part from −100 to 100".
const MOST: i64 = 100;

pub fn any(rng: &mut Random) -> Axes {
    match rng.below(14) {
        0..=3 => LEVEL,
        4 | 5 => quarter(rng),
        6..=9 => small(rng),
        10 => lengthened(rng),
        11 => drawn(|| rng.pick(&[-100, 100, 100, -99, 99, 0, 0, 1, -1])),
        12 => hardly_apart(rng),
        _ => within(rng, MOST),
    }
}

/// Quarter turns: each vector along an axis of the scene.
pub fn quarter(rng: &mut Random) -> Axes {
    let mut vectors = LEVEL.vectors();
    rng.shuffle(&mut vectors);
    righted(Axes::of(vectors.map(|v| match rng.once_in(2) {
        true => turned_about(v),
        false => v,
    })))
}

pub fn small(rng: &mut Random) -> Axes {
    let most = rng.pick(&[1, 1, 2, 3]);
    within(rng, most)
}

fn within(rng: &mut Random, most: i64) -> Axes {
    drawn(|| rng.between(-most, most) as i16)
}

/// Each vector a multiple of a small one, often the longest in range.
fn lengthened(rng: &mut Random) -> Axes {
    Axes::of(small(rng).vectors().map(|v| {
        let longest = MOST / v.iter().map(|n| i64::from(n.abs())).max().unwrap_or(1);
        let times = rng.between(1, longest);
        let times = rng.pick(&[times, longest]);
        v.map(|n| n * times as i16)
    }))
}

/// Long vectors with a volume of 1, or little more: two of them are all but
/// parallel, as 100 · 98 is all but 99 · 99.
fn hardly_apart(rng: &mut Random) -> Axes {
    let n = rng.between(2, MOST) as i16;
    let mut vectors = [[n, n - 1, 0], [n - 1, n - 2, 0], [0, 0, 1]];
    let shift = rng.below(3);
    vectors.iter_mut().for_each(|v| v.rotate_left(shift));
    vectors[2] = vectors[2].map(|part| match part {
        0 => rng.between(-MOST, MOST) as i16,
        _ => rng.pick(&[1, 1, -1, 2]),
    });
    rng.shuffle(&mut vectors);
    righted(Axes::of(vectors))
}

fn turned_about(v: Point) -> Point {
    v.map(|part| -part)
}

/// The same, with up turned about where the volume is below 0.
fn righted(axes: Axes) -> Axes {
    match axes.volume() < 0 {
        true => Axes {
            up: turned_about(axes.up),
            ..axes
        },
        false => axes,
    }
}

/// Parts as they are drawn, until they are not all in one plane.
fn drawn(mut part: impl FnMut() -> i16) -> Axes {
    let mut vector = || [part(), part(), part()];
    loop {
        let axes = Axes::of([vector(), vector(), vector()]);
        if axes.volume() != 0 {
            return righted(axes);
        }
    }
}

/// Forward leads from the eye to a target, where its parts can.
pub fn facing(rng: &mut Random, eye: Point, target: [i64; 3]) -> Option<Axes> {
    let ahead = [0, 1, 2].map(|k| target[k] - i64::from(eye[k]));
    let forward = ahead.map(|n| n / divisor(ahead));
    if ahead == [0; 3] || forward.iter().any(|n| n.abs() > MOST) {
        return None;
    }
    let forward = forward.map(|n| n as i16);
    loop {
        let axes = Axes {
            forward,
            ..small(rng)
        };
        if axes.volume() != 0 {
            return Some(righted(axes));
        }
    }
}

/// Part k of the nine at a value, and the volume 1 whatever the value: the
/// vectors are the scene's axes in an order in which the part was 0.
pub fn with_part(k: usize, value: i16) -> Axes {
    let mut axes = match k {
        0 | 4 | 8 => Axes::of([LEVEL.forward, LEVEL.up, LEVEL.right]),
        _ => LEVEL,
    };
    *axes.part(k) = value;
    axes
}
