//! The scenes that are timed.

use crate::plant::{across, Level, Maker};
use outside::axes::{Axes, LEVEL};
use outside::call::{Call, View};
use outside::random::Random;
use outside::scene::{Patch, Scene};
use outside::station::Station;
use outside::vector::Point;

pub const WIDE: View = View {
    station: Station::Units([0, 0, 0]),
    axes: LEVEL,
    width: 256,
    height: 128,
    lens: 256,
};

/// A roll by 37°. As in the next, the vectors are of one length and square to
/// each other, so that the look is as wide as the level one.
pub const ROLLED: Axes = Axes {
    right: [4, 0, -3],
    forward: [0, 5, 0],
    up: [3, 0, 4],
};

/// A roll and a pitch upward by 18° each.
pub const ROLLED_AND_PITCHED: Axes = Axes {
    right: [18, 1, -6],
    forward: [1, 18, 6],
    up: [6, -6, 17],
};

/// The same window of a turned camera.
pub fn turned(axes: Axes) -> View {
    View { axes, ..WIDE }
}

/// The same look through fewer cells.
pub fn window(width: u16) -> View {
    View {
        width,
        height: width / 2,
        lens: width,
        ..WIDE
    }
}

pub fn call(scene: &Scene, view: View) -> Call {
    Call::new(scene.write(), view)
}

/// A bent bore of 60 rings of 16 panels, seen from its mouth.
pub fn tunnel() -> Scene {
    let around = |side: usize| {
        let angle = (side % 16) as f64 * std::f64::consts::TAU / 16.0 + 0.1;
        (600.0 * angle.cos(), 600.0 * angle.sin())
    };
    let corner = |side: usize, ring: usize| -> Point {
        let (x, z) = around(side);
        let (far, bend) = (ring as f64, (ring * ring) as f64);
        let shift = ((0.9 * bend).round(), (3.0 * far).round());
        [
            (x.round() + shift.0) as i16,
            150 * ring as i16 - 100,
            (z.round() + shift.1) as i16,
        ]
    };
    let panel = |side: usize, ring: usize| Patch {
        panel: (ring * 16 + side + 1) as u16,
        corners: vec![
            corner(side, ring),
            corner(side + 1, ring),
            corner(side + 1, ring + 1),
            corner(side, ring + 1),
        ],
    };
    let rings: Vec<Vec<Patch>> = (0..60)
        .map(|ring| (0..16).map(|side| panel(side, ring)).collect())
        .collect();
    Maker::rings(&rings)
}

/// Large quads across the view, each behind the last and a little wider in it.
pub fn quads(count: usize) -> Vec<Level> {
    let quad = |k: usize| {
        let y = 700.0 + (9 * k) as f64;
        let part = 0.3 + 0.65 * k as f64 / 1_023.0;
        level(k, [0.0, y, 0.0], [part * y, part * y / 2.0], &SQUARE)
    };
    (0..count).map(quad).collect()
}

/// Large quads across the view, each of which covers all of it: every row is
/// full after the first.
pub fn covering(count: usize) -> Vec<Level> {
    let quad = |k: usize| {
        let y = 300.0 + (9 * k) as f64;
        level(k, [0.0, y, 0.0], [1.02 * y, 0.52 * y], &SQUARE)
    };
    (0..count).map(quad).collect()
}

/// Quads of half the view's width and height, each behind the last and a step
/// down to the right of it: every row shows many.
pub fn stairs(count: usize) -> Vec<Level> {
    let quad = |k: usize| {
        let y = 300.0 + (9 * k) as f64;
        let step = y * (k as f64 / (count - 1) as f64 - 0.5);
        level(k, [step, y, -step / 2.0], [y / 2.0, y / 4.0], &SQUARE)
    };
    (0..count).map(quad).collect()
}

/// Patches of three to five corners over the whole view, about 4 cells wide.
pub fn small(count: usize) -> Vec<Level> {
    let mut rng = Random::new(7, count as u64);
    let patch = |k: usize| {
        let y = 300.0 + (9 * k) as f64;
        let x = y * rng.between(-250, 250) as f64 / 256.0;
        let z = y * rng.between(-122, 122) as f64 / 256.0;
        let size = (y / 64.0).max(4.0);
        let shape: &[(f64, f64)] = match k % 4 {
            0 => &[(-1.0, -1.0), (1.0, -0.5), (0.0, 1.0)],
            1 => &[
                (-1.0, 0.0),
                (-0.5, -1.0),
                (0.5, -1.0),
                (1.0, 0.0),
                (0.0, 1.0),
            ],
            _ => &SQUARE,
        };
        level(k, [x, y, z], [size, size], shape)
    };
    (0..count).map(patch).collect()
}

const SQUARE: [(f64, f64); 4] = [(-1.0, -1.0), (1.0, -1.0), (1.0, 1.0), (-1.0, 1.0)];

/// One patch across the view: a shape around a middle, so many times as wide and high.
fn level(k: usize, [x, y, z]: [f64; 3], [wide, high]: [f64; 2], shape: &[(f64, f64)]) -> Level {
    let corner = |p: &(f64, f64)| point([x + wide * p.0, y, z + high * p.1]);
    Level {
        plane: across(y as i16),
        patches: vec![Patch {
            panel: k as u16 + 1,
            corners: shape.iter().map(corner).collect(),
        }],
    }
}

fn point(p: [f64; 3]) -> Point {
    p.map(|n| n.round() as i16)
}
