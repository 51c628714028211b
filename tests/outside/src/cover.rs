//! Which points of space a panel covers, "its pieces' edges and corners counted
//! in": F-5's question of two lists of patches, in whole numbers, however the
//! lists were made.
//!
//! In a plane the answer can change only across an edge of a piece. So each edge
//! is parted where the lines of other edges cross it, and on both sides of each
//! part one place is asked. What the pieces cover is closed and has no bare
//! lines or points, so that lists which agree there agree everywhere. The points
//! of the request, fractions themselves, are asked besides.

use std::cmp::Ordering;
use std::collections::BTreeSet;

use crate::gate::patch_normal;
use crate::random::Random;
use crate::scene::Patch;
use crate::vector::{cross, dot, minus, plus, times, wide, Point, Vector};

/// "Points whose three parts are fractions of two whole numbers": three whole
/// numbers over one above 0.
#[derive(Clone, Copy, Debug, PartialEq, Eq)]
pub struct RationalPoint {
    numerators: Vector,
    denominator: i128,
}

fn gcd(a: i128, b: i128) -> i128 {
    match b {
        0 => a.abs(),
        _ => gcd(b, a % b),
    }
}

/// The numbers without what divides all of them.
fn lowest<const N: usize>(numbers: [i128; N]) -> [i128; N] {
    let whole = numbers.iter().fold(0, |a, &b| gcd(a, b)).max(1);
    numbers.map(|n| n / whole)
}

impl RationalPoint {
    fn corner(p: Point) -> RationalPoint {
        RationalPoint {
            numerators: wide(p),
            denominator: 1,
        }
    }

    /// From v toward w, by a fraction of the way.
    fn between([v, w]: [Point; 2], [part, of]: [i128; 2]) -> RationalPoint {
        let toward = minus(wide(w), wide(v));
        let [x, y, z] = plus(times(of, wide(v)), times(part, toward));
        let [x, y, z, denominator] = lowest([x, y, z, of]);
        RationalPoint {
            numerators: [x, y, z],
            denominator,
        }
    }

    /// The middle of some corners, each with a weight above 0.
    fn middle(corners: &[Point], mut weight: impl FnMut() -> i128) -> RationalPoint {
        let (mut numerators, mut denominator) = ([0; 3], 0);
        for &p in corners {
            let own = weight();
            numerators = plus(numerators, times(own, wide(p)));
            denominator += own;
        }
        RationalPoint {
            numerators,
            denominator,
        }
    }
}

/// A plane or an edge's inner side: a vector, and its product with a point of
/// the plane or edge.
#[derive(Clone, Copy, Debug, PartialEq, Eq, PartialOrd, Ord)]
struct HalfSpace {
    normal: Vector,
    at: i128,
}

impl HalfSpace {
    fn of(normal: Vector, through: Point) -> HalfSpace {
        let [x, y, z] = lowest(normal);
        HalfSpace {
            normal: [x, y, z],
            at: dot([x, y, z], wide(through)),
        }
    }

    /// Above 0, 0 or below 0: how far on the inner side, times the point's
    /// denominator.
    ///
    /// No product leaves i128: a point's denominator is up to 2 · (8 · 10⁸)²,
    /// its numerators up to 10⁴ times that, and parts of normals are up to
    /// 3.2 · 10¹³.
    fn offset(&self, point: &RationalPoint) -> i128 {
        dot(self.normal, point.numerators) - self.at * point.denominator
    }

    fn facing(self) -> HalfSpace {
        let about = HalfSpace {
            normal: times(-1, self.normal),
            at: -self.at,
        };
        self.max(about)
    }
}

/// A patch told by its plane and the inner sides of its edges.
struct Piece {
    panel: u16,
    corners: Vec<Point>,
    plane: HalfSpace,
    sides: Vec<HalfSpace>,
}

impl Piece {
    fn of(patch: &Patch) -> Piece {
        let (n, corners) = (patch_normal(patch), &patch.corners);
        let count = corners.len();
        let side = |k: usize| {
            let along = minus(wide(corners[(k + 1) % count]), wide(corners[k]));
            HalfSpace::of(cross(n, along), corners[k])
        };
        Piece {
            panel: patch.panel,
            plane: HalfSpace::of(n, corners[0]).facing(),
            sides: (0..count).map(side).collect(),
            corners: corners.clone(),
        }
    }

    /// In the plane, and on the inner side of every edge or on it.
    fn covers(&self, point: &RationalPoint) -> bool {
        self.plane.offset(point) == 0 && self.sides.iter().all(|side| side.offset(point) >= 0)
    }

    /// All points from a point toward another of the plane, up to some way.
    fn covers_toward(&self, [point, other]: [&RationalPoint; 2]) -> bool {
        self.sides.iter().all(|side| match side.offset(point) {
            0 => side.offset(other) >= 0,
            offset => offset > 0,
        })
    }

    fn edges(&self) -> impl Iterator<Item = ([Point; 2], HalfSpace)> + '_ {
        let count = self.corners.len();
        (0..count).map(move |k| {
            let ends = [self.corners[k], self.corners[(k + 1) % count]];
            (ends, self.sides[k])
        })
    }
}

/// The pieces of one panel in both lists.
struct Panel<'a> {
    lists: [Vec<&'a Piece>; 2],
}

impl Panel<'_> {
    fn agree(&self, asked: impl Fn(&Piece) -> bool) -> bool {
        let [one, other] = [0, 1].map(|k: usize| self.lists[k].iter().any(|piece| asked(piece)));
        one == other
    }

    fn all(&self) -> impl Iterator<Item = &&Piece> {
        self.lists.iter().flatten()
    }

    /// Corners, middles of edges and pieces, and any fractions inside and on the
    /// lines between corners.
    fn agree_at_spots(&self, rng: &mut Random) -> bool {
        self.all().all(|piece| {
            let corners = piece.corners.iter().map(|&p| RationalPoint::corner(p));
            let edges = piece.edges();
            let halves = edges.map(|(ends, _)| RationalPoint::between(ends, [1, 2]));
            let mut points: Vec<RationalPoint> = corners.chain(halves).collect();
            points.push(RationalPoint::middle(&piece.corners, || 1));
            points.push(RationalPoint::middle(&piece.corners, || {
                rng.between(1, 60) as i128
            }));
            let of = rng.between(2, 99) as i128;
            let [v, w] = [rng.pick(&piece.corners), rng.pick(&piece.corners)];
            let part = rng.between(-40, 140) as i128;
            points.push(RationalPoint::between([v, w], [part, of]));
            points
                .iter()
                .all(|point| self.agree(|one| one.covers(point)))
        })
    }

    /// On both sides of each part of each edge in a plane.
    fn agree_beside_edges(&self, plane: HalfSpace) -> bool {
        let there: Vec<&&Piece> = self.all().filter(|one| one.plane == plane).collect();
        let corners: BTreeSet<Point> = there.iter().flat_map(|one| one.corners.clone()).collect();
        let lines: BTreeSet<HalfSpace> = there
            .iter()
            .flat_map(|one| one.sides.iter().map(|side| side.facing()))
            .collect();
        let edges: BTreeSet<([Point; 2], HalfSpace)> = there
            .iter()
            .flat_map(|one| one.edges())
            .map(|([v, w], side)| ([v.min(w), v.max(w)], side.facing()))
            .collect();
        edges.into_iter().all(|(ends, own)| {
            let points = parts(ends, &lines);
            let beside = [Ordering::Less, Ordering::Greater].map(|way| {
                let is_there = |p: &&Point| own.offset(&RationalPoint::corner(**p)).cmp(&0) == way;
                corners
                    .iter()
                    .find(is_there)
                    .map(|&p| RationalPoint::corner(p))
            });
            points.iter().all(|point| {
                let mut toward = beside.iter().flatten();
                self.agree(|one| one.covers(point))
                    && toward.all(|other| {
                        self.agree(|one| one.plane == plane && one.covers_toward([point, other]))
                    })
            })
        })
    }
}

/// Where lines cross an edge, and the middles between: every second point is
/// inside a part.
fn parts(ends: [Point; 2], lines: &BTreeSet<HalfSpace>) -> Vec<RationalPoint> {
    let [v, w] = ends.map(RationalPoint::corner);
    let mut cuts: Vec<[i128; 2]> = vec![[0, 1], [1, 1]];
    for line in lines {
        let [one, other] = [&v, &w].map(|end| line.offset(end));
        if one.signum() * other.signum() < 0 {
            cuts.push(lowest([one.abs(), one.abs() + other.abs()]));
        }
    }
    cuts.sort_by(|a, b| (a[0] * b[1]).cmp(&(b[0] * a[1])));
    cuts.dedup();
    let mut points = Vec::new();
    for two in cuts.windows(2) {
        let [[a, b], [c, d]] = [two[0], two[1]];
        points.push(RationalPoint::between(ends, [a, b]));
        points.push(RationalPoint::between(
            ends,
            lowest([a * d + c * b, 2 * b * d]),
        ));
    }
    points
}

/// Does the patch cover the point of three whole numbers over one above 0?
pub fn covers(patch: &Patch, numerators: Vector, denominator: i128) -> bool {
    Piece::of(patch).covers(&RationalPoint {
        numerators,
        denominator,
    })
}

/// "each panel covers the same points of space": by every number that stands in
/// either list.
pub fn same_cover(first: &[Patch], second: &[Patch]) -> bool {
    let [first, second] = [first, second].map(|list| {
        let pieces = list.iter().map(Piece::of);
        pieces.collect::<Vec<Piece>>()
    });
    let both = || first.iter().chain(&second);
    let panels: BTreeSet<u16> = both().map(|piece| piece.panel).collect();
    let mut rng = Random::new(first.len() as u64, second.len() as u64);
    panels.into_iter().all(|panel| {
        let is_own = |piece: &&Piece| piece.panel == panel;
        let lists = [&first, &second].map(|list| list.iter().filter(is_own).collect());
        let panel = Panel { lists };
        let planes: BTreeSet<HalfSpace> = panel.all().map(|piece| piece.plane).collect();
        panel.agree_at_spots(&mut rng) && planes.into_iter().all(|p| panel.agree_beside_edges(p))
    })
}
