//! Built works: stacks of parallel patches, combs of columns, panels in pieces
//! and linings.

use crate::axes::{Axes, LEVEL};
use crate::call::View;
use crate::mount;
use crate::polygon::{dressed, hull, point, Basis};
use crate::random::Random;
use crate::scene::Patch;
use crate::soup::{gather, Corners};
use crate::station::Station::Units;
use crate::vector::{dot, Point};

/// Up to 1,024 parallel patches, one plane each; with four corners each they
/// fill a scene to its last byte.
pub fn stack(rng: &mut Random, most: usize) -> Vec<Corners> {
    let wanted = rng.pick(&[3, 8, 20, 50, 90, 300, 1_023, 1_024]).min(most);
    let step = [0; 3].map(|_| rng.between(-2, 2));
    let middle = wanted as i64 / 2;
    let mut shapes = gather(rng, 1, |rng| {
        let basis = Basis::any(rng, 9, 9);
        let across = dot(basis.normal(), step.map(i128::from)) != 0;
        let square = [
            basis.at(0, 0),
            basis.at(1, 0),
            basis.at(1, 1),
            basis.at(0, 1),
        ];
        let square: Corners = square.into_iter().filter_map(point).collect();
        across.then_some(square)
    });
    let Some(shape) = shapes.pop() else {
        return Vec::new();
    };
    let moved = |k: i64, p: &Point| {
        let at = [0, 1, 2].map(|axis| i64::from(p[axis]) + (k - middle) * step[axis]);
        point(at).expect("a stack keeps within the range")
    };
    let patches = (0..wanted as i64).map(|k| shape.iter().map(|p| moved(k, p)).collect());
    patches.collect()
}

/// Lit columns between unlit ones, up to 128 stretches in a row of 256,
/// whichever way the camera is turned.
pub fn comb(rng: &mut Random, work: usize) -> (Vec<Corners>, View) {
    let width = rng.pick(&[256, 256, 256, 255, 254, 64, 9]);
    let height = (work as i64 / (width * width / 2)).clamp(1, 6);
    let axes = plain(rng);
    let view = View {
        station: Units([0; 3].map(|_| rng.between(-400, 400) as i16)),
        axes,
        width: width as u16,
        height: rng.between(1, height) as u16,
        lens: rng.between(1, 500) as u16,
    };
    let deepest = (18 / spread(&axes)).max(1);
    let depths: Vec<i64> = (0..1 + rng.below(3))
        .map(|_| rng.between(1, deepest))
        .collect();
    let (parity, dense) = (rng.below(2), rng.once_in(2));
    let habit = [rng.once_in(2), rng.once_in(2)];
    let mut teeth = Vec::new();
    for i in 0..usize::from(view.width) {
        let lit = match dense {
            true => i % 2 == parity,
            false => rng.once_in(2),
        };
        if lit {
            let depth = rng.pick(&depths);
            teeth.extend(tooth(rng, &view, i, depth, habit));
        }
    }
    (teeth, view)
}

/// A camera whose directions stay small numbers.
pub fn plain(rng: &mut Random) -> Axes {
    match rng.below(4) {
        0 | 1 => LEVEL,
        2 => mount::quarter(rng),
        _ => mount::small(rng),
    }
}

/// How far one unit along each vector can lead along an axis of the scene.
fn spread(axes: &Axes) -> i64 {
    let along = |k: usize| axes.vectors().map(|v| i64::from(v[k].abs())).iter().sum();
    (0..3).map(along).max().unwrap_or(1)
}

/// The tooth of column i, so many times the direction away. It stops short of
/// the neighbours' sight lines or ends exactly on them; on the left one's only
/// where it may, as it lights that cell too. One beyond the range, or of no
/// height, falls out.
fn tooth(
    rng: &mut Random,
    view: &View,
    i: usize,
    depth: i64,
    [whole, single]: [bool; 2],
) -> Option<Corners> {
    let height = i64::from(view.height);
    let ends = [1, depth, 2 * depth - 1, 2 * depth, 2 * depth];
    let left = rng.pick(if single { &ends[..3] } else { &ends });
    let right = rng.pick(&ends);
    let up = match whole {
        true => depth * height,
        false => depth * rng.between(0, height) + rng.between(0, 1),
    };
    let middle = depth * (2 * i as i64 + 1 - i64::from(view.width));
    let corner = |(aside, above): (i64, i64)| {
        let told = [middle + aside, depth * i64::from(view.lens), above];
        let from = view.axes.sum(told.map(i128::from)).map(|n| n as i64);
        point([0, 1, 2].map(|k| i64::from(view.eye()[k]) + from[k]))
    };
    let square = [(-left, -up), (right, -up), (right, up), (-left, up)];
    let corners: Option<Corners> = square.into_iter().map(corner).collect();
    corners.filter(|_| up > 0)
}

/// One to three panels in pieces before the camera, on one to three layers: the
/// pieces overlap, share edges, stand twice, and hide each other.
pub fn pieces(rng: &mut Random, work: usize) -> (Vec<Patch>, View) {
    let width = rng.pick(&[256, 255, 40, 12, 9, 8, 7]);
    let height = (work as i64 / (8 * width)).clamp(1, 30);
    let view = View {
        station: Units([0; 3].map(|_| rng.between(-200, 200) as i16)),
        axes: plain(rng),
        width: width as u16,
        height: rng.between(1, height) as u16,
        lens: rng.between(1, 2 * width) as u16,
    };
    let layers: Vec<Basis> = (0..1 + rng.below(3)).map(|_| layer(rng, &view)).collect();
    let wanted = 2 + rng.below(8);
    let shapes = gather(rng, wanted, |rng| {
        let (layer, grid) = (rng.pick(&layers), rng.between(1, 5));
        match rng.once_in(3) {
            true => layer.polygon(rng, grid),
            false => layer.rectangle(rng, grid),
        }
    });
    let (lowest, more) = (rng.between(1, 1_022), rng.between(0, 2));
    let mut patches = Vec::new();
    for corners in shapes {
        let panel = (lowest + rng.between(0, more)) as u16;
        let times = rng.pick(&[1, 1, 1, 1, 2, 3]);
        patches.extend(vec![Patch { panel, corners }; times]);
    }
    (patches, view)
}

/// A plane of lattice points in the window, so many times the directions away,
/// now and then leaning. Sight lines often end on its lines.
fn layer(rng: &mut Random, view: &View) -> Basis {
    let depth = rng.between(1, (30 / spread(&view.axes)).max(1));
    let mut across = |cells: u16| {
        let half = depth * i64::from(cells);
        let step = rng.pick(&[half / 4 + 1, half / 2 + 1, half + 1]);
        // Often from the window's end on, so that rows are lit from end to end.
        let start = rng.between(-half - 1, -half / 2);
        [rng.pick(&[start, -half - 1]), step]
    };
    let ([left, right], [low, up]) = (across(view.width), across(view.height));
    let mut lean = || rng.pick(&[0, 0, 0, 0, 1, -1]);
    let (ahead, lean) = (depth * i64::from(view.lens), [lean(), lean()]);
    let told = |at: [i64; 3]| view.axes.sum(at.map(i128::from)).map(|n| n as i64);
    let from = told([left, ahead, low]);
    Basis {
        origin: [0, 1, 2].map(|k| i64::from(view.eye()[k]) + from[k]),
        u: told([right, lean[0], 0]),
        v: told([0, lean[1], up]),
    }
}

/// Rings of panels around the bore, straight or bent, with gaps, a face at the
/// end and things in the bore; seen from inside.
pub fn lining(rng: &mut Random, most: usize) -> (Vec<Patch>, View) {
    let radius = rng.pick(&[6, 40, 300, 2_000]);
    let spread = |rng: &mut Random| {
        [
            rng.between(-radius, radius),
            0,
            rng.between(-radius, radius),
        ]
    };
    let around: Corners = (0..30).filter_map(|_| point(spread(rng))).collect();
    let ring = hull(around, [0, 1, 0]);
    let rings = (1 + rng.below(30)).min(most / ring.len()).max(1) as i64;
    let long = rng.between(1, 1 + radius.min(300));
    let start = rng.between(-rings * long / 2, 10);
    let bend = rng.pick(&[[0, 0], [0, 0], [1, 0], [0, -1], [2, 1]]);
    let at = |p: Point, k: i64| {
        let [x, _, z] = p.map(i64::from);
        point([x + bend[0] * k, start + long * k, z + bend[1] * k])
    };
    let mut patches = Vec::new();
    for k in 0..rings {
        for (side, &p) in ring.iter().enumerate() {
            let q = ring[(side + 1) % ring.len()];
            let corners = [at(p, k), at(q, k), at(q, k + 1), at(p, k + 1)];
            let corners: Corners = corners.into_iter().flatten().collect();
            let panel = (k as usize * ring.len() + side) % 1_024 + 1;
            if !rng.once_in(15) {
                let panel = panel as u16;
                patches.push(Patch { panel, corners });
            }
        }
    }
    let face: Corners = ring.iter().filter_map(|&p| at(p, rings)).collect();
    let things = (0..rng.below(6)).filter_map(|_| {
        let mut basis = Basis::any(rng, radius / 3, 1 + radius / 15);
        basis.origin[1] += start + rng.between(0, rings * long);
        basis.polygon(rng, 3)
    });
    let mut others: Vec<Corners> = things.collect();
    if rng.once_in(2) {
        others.extend(dressed(rng, face));
    }
    for corners in others {
        let panel = rng.between(1, 1_024) as u16;
        patches.push(Patch { panel, corners });
    }
    let eye = [
        rng.between(-radius / 3, radius / 3),
        start + rng.between(0, rings * long / 2),
        rng.between(-radius / 3, radius / 3),
    ];
    let view = View {
        station: Units(eye.map(|n| n as i16)),
        axes: mount::any(rng),
        width: rng.between(1, 48) as u16,
        height: rng.between(1, 32) as u16,
        lens: rng.between(1, 60) as u16,
    };
    (patches, view)
}
