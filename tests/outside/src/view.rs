//! Stations, cameras and windows: many sight lines pass exactly through corners
//! and edges, many eyes stand on planes.

use crate::axes::Axes;
use crate::call::View;
use crate::mount;
use crate::polygon::{divisor, point};
use crate::random::Random;
use crate::ray::direction;
use crate::scene::Patch;
use crate::soup::end;
use crate::station::Station::Units;
use crate::vector::Point;

/// A view of the patches with at most `work` rays times patches, or so.
pub fn choose(rng: &mut Random, patches: &[Patch], work: usize) -> View {
    let most = (work / patches.len().max(1)).max(16);
    let axes = mount::any(rng);
    if !patches.is_empty() && rng.once_in(2) {
        if let Some(view) = framed(rng, patches, axes, most) {
            return view;
        }
    }
    let (width, height) = size(rng, most);
    let mut view = View {
        station: Units([0, 0, 0]),
        axes,
        width,
        height,
        lens: lens(rng, width),
    };
    if patches.is_empty() {
        view.station = Units(anywhere(rng));
    } else if rng.once_in(2) {
        let eye = aimed(rng, patches, &view);
        view.station = Units(eye.unwrap_or_else(|| anywhere(rng)));
    } else {
        let eye = standing(rng, patches).unwrap_or_else(|| anywhere(rng));
        view.station = Units(eye);
        if rng.once_in(2) {
            let target = target(rng, patches);
            view.axes = mount::facing(rng, eye, target).unwrap_or(axes);
        }
    }
    view
}

fn anywhere(rng: &mut Random) -> Point {
    [0; 3].map(|_| end(rng) as i16)
}

/// An eye on a patch's plane, or in the midst of the patches.
fn standing(rng: &mut Random, patches: &[Patch]) -> Option<Point> {
    match rng.below(5) {
        0 => in_plane(rng, patches),
        1 => middle(rng, patches),
        2 | 3 => among(rng, patches),
        _ => None,
    }
}

fn size(rng: &mut Random, most: usize) -> (u16, u16) {
    let (mut width, mut height) = match rng.below(8) {
        0..=3 => (rng.between(1, 12), rng.between(1, 8)),
        4 => (256, rng.between(1, 128)),
        5 => (rng.between(1, 256), 128),
        6 => (rng.between(1, 256), rng.between(1, 128)),
        _ => (rng.pick(&[255, 256, 64, 1]), rng.pick(&[127, 128, 3, 1])),
    };
    let tall = rng.once_in(2);
    while width * height > most as i64 {
        if height == 1 || (tall && width > 1) {
            width = (width / 2).max(1);
        } else {
            height = (height / 2).max(1);
        }
    }
    (width as u16, height as u16)
}

fn lens(rng: &mut Random, width: u16) -> u16 {
    let width = i64::from(width);
    let lens = match rng.below(6) {
        0 => rng.between(1, 3),
        1 => width,
        2 => width / 2 + 1,
        3 => rng.between(1, 2 * width),
        4 => rng.between(1, 4_096),
        _ => rng.pick(&[1, 4_095, 4_096]),
    };
    lens as u16
}

/// A corner, a point of an edge, a point next to an edge, or the middle.
fn target(rng: &mut Random, patches: &[Patch]) -> [i64; 3] {
    let corners = rng.pick(patches).corners;
    let at = rng.below(corners.len());
    let v = corners[at].map(i64::from);
    let w = corners[(at + 1) % corners.len()].map(i64::from);
    let centre = centre(&corners);
    match rng.below(5) {
        0 => v,
        1 => on_edge(rng, v, w),
        2 => {
            let p = on_edge(rng, v, w);
            [0, 1, 2].map(|k| p[k] + (centre[k] - p[k]).signum())
        }
        _ => centre,
    }
}

/// A close view: a small step, told by right, forward and up, leads from the
/// eye to a target, and a multiple of the step is the direction of a cell.
fn framed(rng: &mut Random, patches: &[Patch], axes: Axes, most: usize) -> Option<View> {
    let target = target(rng, patches);
    let step = [rng.between(-3, 3), rng.between(1, 5), rng.between(-2, 2)];
    let corners = patches.iter().flat_map(|p| p.corners.iter());
    let reach = corners.flatten().map(|n| i64::from(n.abs())).max();
    let fine = rng.pick(&[1, 2, 3, 7, 12, 30, 60]);
    let along = step.map(|n| fine * n);
    // Cells on both sides of the one aimed at; the parity is that of its
    // direction.
    let width = along[0].abs() + 1 + 2 * rng.between(0, 3 * fine);
    let height = along[2].abs() + 1 + 2 * rng.between(0, 2 * fine);
    let step = axes.sum(step.map(i128::from)).map(|n| n as i64);
    let step = step.map(|n| n / divisor(step));
    let room = 10_000 / step.iter().map(|n| n.abs()).max().unwrap_or(1);
    let far = rng.between(1, reach.unwrap_or(1).clamp(1, room.min(2_000)));
    let view = View {
        station: Units(point([0, 1, 2].map(|k| target[k] - far * step[k]))?),
        axes,
        width: width as u16,
        height: height as u16,
        lens: along[1] as u16,
    };
    let fits = width <= 256 && height <= 128 && view.cells() <= most;
    fits.then_some(view)
}

/// The eye from which one cell's line passes exactly through a target.
fn aimed(rng: &mut Random, patches: &[Patch], view: &View) -> Option<Point> {
    let target = target(rng, patches);
    let i = rng.below(usize::from(view.width));
    let j = rng.below(usize::from(view.height));
    let along = direction(view, i, j).map(|n| n as i64);
    let along = along.map(|n| n / divisor(along));
    let most = (0..3).filter(|&k| along[k] != 0).map(|k| {
        let room = 10_000 + target[k] * along[k].signum();
        room / along[k].abs()
    });
    let most = most.min().unwrap_or(0);
    if most < 1 {
        return None;
    }
    let most = if rng.once_in(2) { most.min(4) } else { most };
    let times = rng.between(1, most);
    point([0, 1, 2].map(|k| target[k] - times * along[k]))
}

/// A lattice point of the edge, its ends among them.
fn on_edge(rng: &mut Random, v: [i64; 3], w: [i64; 3]) -> [i64; 3] {
    let apart = [0, 1, 2].map(|k| w[k] - v[k]);
    let parts = divisor(apart);
    let part = rng.between(0, parts);
    [0, 1, 2].map(|k| v[k] + apart[k] / parts * part)
}

fn centre(corners: &[Point]) -> [i64; 3] {
    let sum = |k: usize| corners.iter().map(|p| i64::from(p[k])).sum::<i64>();
    [0, 1, 2].map(|k| sum(k) / corners.len() as i64)
}

/// A corner, or another lattice point of a patch's plane.
fn in_plane(rng: &mut Random, patches: &[Patch]) -> Option<Point> {
    let corners = rng.pick(patches).corners;
    let [a, b, c] = [0, 1, 2].map(|k: usize| corners[k].map(i64::from));
    let (s, t) = (rng.between(-1, 2), rng.between(-1, 2));
    point([0, 1, 2].map(|k| a[k] + s * (b[k] - a[k]) + t * (c[k] - a[k])))
}

fn middle(rng: &mut Random, patches: &[Patch]) -> Option<Point> {
    let all: Vec<Point> = patches.iter().flat_map(|p| p.corners.clone()).collect();
    point(centre(&all).map(|n| n + rng.between(-2, 2)))
}

/// Anywhere in the box around the patches, or a little outside it.
fn among(rng: &mut Random, patches: &[Patch]) -> Option<Point> {
    let any = |rng: &mut Random| {
        let corners = rng.pick(patches).corners;
        rng.pick(&corners).map(i64::from)
    };
    let (p, q) = (any(rng), any(rng));
    let margin = rng.between(0, 6);
    point([0, 1, 2].map(|k| {
        let (low, high) = (p[k].min(q[k]), p[k].max(q[k]));
        rng.between(low - margin, high + margin)
    }))
}
