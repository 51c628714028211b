//! Views whose sight lines run along the joints of panels and through the points
//! of their lattices.

use crate::axes::{Axes, LEVEL};
use crate::call::View;
use crate::mount;
use crate::panels::{Part, GRID};
use crate::polygon::{divisor, point};
use crate::random::Random;
use crate::ray::direction;
use crate::scene::Patch;
use crate::station::Station::Units;
use crate::vector::Point;
use crate::view;

/// A view of the parts' pieces with at most `work` rays times patches, or so:
/// along the joints of a part, with the eye in a part's plane, or any.
pub fn sighted(rng: &mut Random, parts: &[Part], patches: &[Patch], work: usize) -> View {
    let most = (work / patches.len().max(1)).max(9);
    let seen = match rng.below(8) {
        0..=5 => along_joints(rng, parts, patches, most),
        6 => in_plane(rng, parts, most),
        _ => None,
    };
    seen.unwrap_or_else(|| view::choose(rng, patches, work))
}

/// Where pieces of a part meet, or where the part meets others; else any point
/// of its lattice.
fn target(rng: &mut Random, part: &Part, parts: &[Part], patches: &[Patch]) -> Point {
    let mut points: Vec<Point> = match rng.once_in(2) {
        true => {
            let others = parts.iter().filter(|other| other.basis != part.basis);
            others.flat_map(|other| other.lattice.clone()).collect()
        }
        false => patches.iter().flat_map(|p| p.corners.clone()).collect(),
    };
    points.retain(|&p| part.holds(p));
    points.push(rng.pick(&part.lattice));
    rng.pick(&points)
}

/// Right and up follow lattice lines of a part, and one cell looks at a point of
/// its lattice: so do others, and the lines of whole columns or rows run along a
/// joint.
fn along_joints(rng: &mut Random, parts: &[Part], patches: &[Patch], most: usize) -> Option<View> {
    let part = &parts[rng.below(parts.len())];
    let (axes, [across, above]) = along_lines(rng, part)?;
    let target = target(rng, part, parts, patches).map(i64::from);
    let depth = rng
        .pick(&[1, 1, 2, 3, across / 2, across, above / 2])
        .max(1);
    let mut cells = |steps: i64, most: i64| {
        let whole = GRID * steps / (2 * depth) + 2;
        rng.between(2, whole.clamp(3, most))
    };
    let (width, height) = (cells(across, 40), cells(above, 24));
    let view = View {
        station: Units([0; 3]),
        axes,
        width: width as u16,
        height: (most as i64 / width).clamp(1, height) as u16,
        lens: rng.between(1, 12) as u16,
    };
    let mut amid = |cells: u16| rng.between(i64::from(cells / 4), i64::from(3 * cells / 4));
    let [i, j] = [view.width - 1, view.height - 1].map(|last| amid(last) as usize);
    let ahead = direction(&view, i, j).map(|n| depth * n as i64);
    let eye = point([0, 1, 2].map(|k| target[k] - ahead[k]))?;
    let station = Units(eye);
    Some(View { station, ..view })
}

/// A camera whose right and up are lattice lines, and how many times they go into
/// a step of the lattice; now and then the level one.
fn along_lines(rng: &mut Random, part: &Part) -> Option<(Axes, [i64; 2])> {
    let (u, v) = (part.basis.u, part.basis.v);
    if rng.once_in(4) {
        return Some((LEVEL, [divisor(u), divisor(v)]));
    }
    let sum = |a: i64, b: i64| [0, 1, 2].map(|k| a * u[k] + b * v[k]);
    let mut ways = vec![u, v];
    if rng.once_in(2) {
        ways.extend([sum(1, 1), sum(1, -1)]);
    }
    rng.shuffle(&mut ways);
    let [right, up] = [ways[0], ways[1]].map(|way| way.map(|n| (n / divisor(way)) as i16));
    let mut vectors = [right, ahead(rng, part), up];
    if Axes::of(vectors).volume() < 0 {
        let k = rng.below(3);
        vectors[k] = vectors[k].map(|n| -n);
    }
    let axes = Axes::of(vectors);
    let in_range = vectors.iter().flatten().all(|n| n.abs() <= 100);
    (in_range && axes.volume() > 0).then_some((axes, [divisor(ways[0]), divisor(ways[1])]))
}

/// Forward is any, or square to the part.
fn ahead(rng: &mut Random, part: &Part) -> Point {
    let n = part.basis.normal().map(|n| n as i64);
    let square = n.map(|part| part / divisor(n));
    match rng.once_in(2) && square.iter().all(|part| part.abs() <= 100) {
        true => square.map(|part| part as i16),
        false => [0; 3].map(|_| rng.between(-3, 3) as i16),
    }
}

/// The eye on a lattice point of one part, looking at one of any.
fn in_plane(rng: &mut Random, parts: &[Part], most: usize) -> Option<View> {
    let mut any = || {
        let part = &parts[rng.below(parts.len())];
        rng.pick(&part.lattice)
    };
    let (eye, target): (Point, Point) = (any(), any());
    let width = rng.between(1, 12);
    let height = (most as i64 / width).clamp(1, 8);
    Some(View {
        station: Units(eye),
        axes: mount::facing(rng, eye, target.map(i64::from))?,
        width: width as u16,
        height: rng.between(1, height) as u16,
        lens: rng.between(1, 12) as u16,
    })
}
