//! Pieces of a panel cut and put together again. "Planners cut a panel wherever
//! their tree suits them", so long as every corner stays a whole number.

use crate::polygon::hull;
use crate::soup::Corners;
use crate::tree::Plane;
use crate::vector::{cross, dot, minus, normal, side, wide, Point, Vector};

/// As many corners as a patch may have.
const MOST: usize = 8;

/// Does the plane pass through the piece?
pub fn straddles(corners: &[Point], plane: &Plane) -> bool {
    let sides = || corners.iter().map(|&p| side(plane, p));
    sides().any(|side| side > 0) && sides().any(|side| side < 0)
}

/// The parts of a piece on the positive and the negative side of a plane that
/// passes through it. None where a corner would be no whole number, or a part
/// would have too many.
pub fn halves(corners: &[Point], plane: &Plane) -> Option<[Corners; 2]> {
    let count = corners.len();
    let mut parts = [Vec::new(), Vec::new()];
    for k in 0..count {
        let ends = [corners[k], corners[(k + 1) % count]];
        let [own, next] = ends.map(|p| side(plane, p));
        if own >= 0 {
            parts[0].push(ends[0]);
        }
        if own <= 0 {
            parts[1].push(ends[0]);
        }
        if own.signum() * next.signum() < 0 {
            let cut = between(ends, [own.abs(), own.abs() + next.abs()])?;
            parts.iter_mut().for_each(|part| part.push(cut));
        }
    }
    parts.iter().all(|part| part.len() <= MOST).then_some(parts)
}

/// From v toward w, by a fraction of the way, if that is a whole point.
fn between([v, w]: [Point; 2], [part, of]: [i128; 2]) -> Option<Point> {
    let toward = minus(wide(w), wide(v)).map(|n| n * part);
    let whole = toward.iter().all(|n| n % of == 0);
    whole.then(|| [0, 1, 2].map(|k| v[k] + (toward[k] / of) as i16))
}

/// The triangles from a point of the piece, a corner or any other, to its edges.
pub fn around(corners: &[Point], from: Point) -> Vec<Corners> {
    let count = corners.len();
    let triangles = (0..count).map(|k| vec![corners[k], corners[(k + 1) % count], from]);
    let is_flat = |t: &Corners| normal(t[0], t[1], t[2]) == [0; 3];
    triangles.filter(|t| !is_flat(t)).collect()
}

/// Twice the piece's area, times the length of a normal, which is not 0.
fn area(corners: &[Point], n: Vector) -> i128 {
    let count = corners.len();
    let around = (0..count).map(|k| {
        let [v, w] = [corners[k], corners[(k + 1) % count]].map(wide);
        dot(n, cross(v, w))
    });
    around.sum::<i128>().abs()
}

/// The strict hull of points of one plane, if a patch can have so many corners.
pub fn spanned(points: Corners, n: Vector) -> Option<Corners> {
    Some(hull(points, n)).filter(|corners| (3..=MOST).contains(&corners.len()))
}

/// Two pieces of one plane, listed the same way round, as one: they share an
/// edge, and together they are convex.
pub fn joined([one, other]: [&Corners; 2]) -> Option<Corners> {
    let edges = |corners: &Corners| -> Vec<[Point; 2]> {
        let count = corners.len();
        let ends = (0..count).map(|k| [corners[k], corners[(k + 1) % count]]);
        ends.collect()
    };
    let back = edges(other);
    let is_shared = |&[v, w]: &[Point; 2]| back.contains(&[w, v]);
    let n = normal(one[0], one[1], one[2]);
    let whole = spanned([one.clone(), other.clone()].concat(), n)?;
    let convex = area(&whole, n) == area(one, n) + area(other, n);
    (convex && edges(one).iter().any(is_shared)).then_some(whole)
}

/// Is the point in the piece, edges and corners counted in?
pub fn holds(corners: &[Point], p: Point) -> bool {
    let n = normal(corners[0], corners[1], corners[2]);
    let count = corners.len();
    let from = |v: Point| minus(wide(p), wide(v));
    let is_inside = |k: usize| {
        let along = minus(wide(corners[(k + 1) % count]), wide(corners[k]));
        dot(n, cross(along, from(corners[k]))) >= 0
    };
    dot(n, from(corners[0])) == 0 && (0..count).all(is_inside)
}
