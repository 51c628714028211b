//! Strictly convex polygons with whole-number corners in any plane.

use crate::random::Random;
use crate::vector::{cross, dot, minus, normal, wide, Point, Vector};

/// The point, if it lies within the range of question 3.
pub fn point(p: [i64; 3]) -> Option<Point> {
    let fits = p.iter().all(|n| n.abs() <= 10_000);
    fits.then(|| p.map(|n| n as i16))
}

/// The greatest number that divides all three parts, 1 where all are 0.
pub fn divisor(p: [i64; 3]) -> i64 {
    fn common(a: i64, b: i64) -> i64 {
        match b {
            0 => a,
            _ => common(b, a % b),
        }
    }
    p.iter().fold(0, |a, b| common(a, b.abs())).max(1)
}

/// The strict hull of points in a plane with this normal, one way round.
pub fn hull(mut points: Vec<Point>, n: Vector) -> Vec<Point> {
    let axis = (0..3).max_by_key(|&k| n[k].abs()).unwrap_or(0);
    let (s, t) = ((axis + 1) % 3, (axis + 2) % 3);
    let turn = |a: Point, b: Point, c: Point| {
        let [ab, ac] = [minus(wide(b), wide(a)), minus(wide(c), wide(a))];
        ab[s] * ac[t] - ab[t] * ac[s]
    };
    points.sort_by_key(|p| (p[s], p[t]));
    points.dedup();
    let mut whole = Vec::new();
    for _ in 0..2 {
        let mut half: Vec<Point> = Vec::new();
        for &p in &points {
            while half.len() > 1 && turn(half[half.len() - 2], half[half.len() - 1], p) <= 0 {
                half.pop();
            }
            half.push(p);
        }
        half.pop();
        whole.extend(half);
        points.reverse();
    }
    whole
}

/// At most 8 corners of a hull, from any start, either way round.
pub fn dressed(rng: &mut Random, mut corners: Vec<Point>) -> Option<Vec<Point>> {
    while corners.len() > 8 {
        corners.remove(rng.below(corners.len()));
    }
    if corners.len() < 3 {
        return None;
    }
    let start = rng.below(corners.len());
    corners.rotate_left(start);
    if rng.once_in(2) {
        corners.reverse();
    }
    Some(corners)
}

/// A polygon on lattice points of a plane through three points of a box.
pub fn in_box(rng: &mut Random, low: [i64; 3], high: [i64; 3]) -> Option<Vec<Point>> {
    let mut any = || [0, 1, 2].map(|k| rng.between(low[k], high[k]) as i16);
    let (a, b, c) = (any(), any(), any());
    let n = normal(a, b, c);
    if n == [0, 0, 0] {
        return None;
    }
    let mut flat = Vec::new();
    for x in low[0]..=high[0] {
        for y in low[1]..=high[1] {
            for z in low[2]..=high[2] {
                let p = [x, y, z].map(|n| n as i16);
                if dot(minus(wide(p), wide(a)), n) == 0 {
                    flat.push(p);
                }
            }
        }
    }
    rng.shuffle(&mut flat);
    flat.truncate(3 + rng.below(9));
    let corners = hull(flat, n);
    dressed(rng, corners)
}

/// Few hulls have as many corners by chance.
const EIGHT: [[i64; 2]; 8] = [
    [1, 0],
    [2, 0],
    [3, 1],
    [3, 2],
    [2, 3],
    [1, 3],
    [0, 2],
    [0, 1],
];

/// A plane's lattice: origin + s · u + t · v.
#[derive(Clone, Copy, Debug, PartialEq, Eq)]
pub struct Basis {
    pub origin: [i64; 3],
    pub u: [i64; 3],
    pub v: [i64; 3],
}

impl Basis {
    pub fn any(rng: &mut Random, reach: i64, step: i64) -> Basis {
        let mut within = |most: i64| [0; 3].map(|_| rng.between(-most, most));
        Basis {
            origin: within(reach),
            u: within(step),
            v: within(step),
        }
    }

    pub fn at(&self, s: i64, t: i64) -> [i64; 3] {
        [0, 1, 2].map(|k| self.origin[k] + s * self.u[k] + t * self.v[k])
    }

    pub fn normal(&self) -> Vector {
        cross(self.u.map(i128::from), self.v.map(i128::from))
    }

    /// The four corners between two lines each way, s and t from 0 to `grid`,
    /// often the outermost ones.
    pub fn rectangle(&self, rng: &mut Random, grid: i64) -> Option<Vec<Point>> {
        let [s, t] = [0; 2].map(|_| {
            let low = rng.between(0, grid - 1);
            let any = [low, rng.between(low + 1, grid)];
            rng.pick(&[any, any, [0, grid]])
        });
        let spots = [[s[0], t[0]], [s[1], t[0]], [s[1], t[1]], [s[0], t[1]]];
        let corners: Option<Vec<Point>> = spots
            .map(|[s, t]| point(self.at(s, t)))
            .into_iter()
            .collect();
        corners.filter(|_| self.normal() != [0, 0, 0])
    }

    /// A polygon with s and t from 0 to `grid`.
    pub fn polygon(&self, rng: &mut Random, grid: i64) -> Option<Vec<Point>> {
        if self.normal() == [0, 0, 0] {
            return None;
        }
        let wanted = 3 + rng.below(10);
        let spots: Vec<[i64; 2]> = match grid > 2 && rng.once_in(8) {
            true => EIGHT.to_vec(),
            false => (0..wanted)
                .map(|_| [0; 2].map(|_| rng.between(0, grid)))
                .collect(),
        };
        let places = spots.into_iter().map(|[s, t]| point(self.at(s, t)));
        let points: Option<Vec<Point>> = places.collect();
        let corners = hull(points?, self.normal());
        dressed(rng, corners)
    }
}
