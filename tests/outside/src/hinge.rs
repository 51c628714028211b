//! Patches that meet on sight lines: leaves of several planes on one hinge,
//! pieces of a plane around a corner, and patches seen edge on.

use crate::call::View;
use crate::polygon::point;
use crate::random::Random;
use crate::soup::Corners;
use crate::station::Station::Units;
use crate::vector::{normal, Point};
use crate::works::plain;

/// A place told by how far it lies along right, forward and up from the eye.
type Place = [i64; 3];

/// Patches around one to three hinges, and a small window before them.
pub fn hinged(rng: &mut Random) -> (Vec<Corners>, View) {
    let view = View {
        station: Units([0; 3].map(|_| rng.between(-40, 40) as i16)),
        axes: plain(rng),
        width: rng.between(1, 7) as u16,
        height: rng.between(1, 5) as u16,
        lens: rng.between(1, 6) as u16,
    };
    let mut patches = Vec::new();
    for _ in 0..1 + rng.below(3) {
        let hinge = Hinge::any(rng, &view);
        for _ in 0..2 + rng.below(4) {
            let places = hinge.leaf(rng);
            patches.extend(stands(&view, &places));
        }
        if rng.once_in(2) {
            let pieces = hinge.around_a_corner(rng);
            patches.extend(pieces.iter().filter_map(|places| stands(&view, places)));
        }
    }
    if rng.once_in(2) {
        patches.extend(stands(&view, &behind(rng, &view)));
    }
    (patches, view)
}

/// The direction of a cell, told along right, forward and up.
fn any_line(rng: &mut Random, view: &View) -> Place {
    let [width, height] = [view.width, view.height].map(i64::from);
    let (i, j) = (rng.between(0, width - 1), rng.between(0, height - 1));
    [2 * i + 1 - width, i64::from(view.lens), height - 1 - 2 * j]
}

/// A line between two places on sight lines, often of one column or one row.
struct Hinge {
    /// The directions of the two, and how many times these lead to the places.
    lines: [Place; 2],
    depths: [i64; 2],
}

impl Hinge {
    fn any(rng: &mut Random, view: &View) -> Hinge {
        let one = any_line(rng, view);
        let mut other = any_line(rng, view);
        let shared = rng.pick(&[0, 2, 1]);
        other[shared] = one[shared];
        let near = rng.between(1, 5);
        let far = rng.between(1, 5);
        let depths = [near, rng.pick(&[near, far])];
        if other == one && depths[0] == depths[1] {
            other[2 - 2 * rng.below(2)] += rng.pick(&[-2, 2]);
        }
        Hinge {
            lines: [one, other],
            depths,
        }
    }

    fn ends(&self) -> [Place; 2] {
        [0, 1].map(|end| times(self.depths[end], self.lines[end]))
    }

    /// A patch with an edge on the hinge, or in its plane before it.
    fn leaf(&self, rng: &mut Random) -> Vec<Place> {
        let [p, q] = self.ends();
        let away = match rng.once_in(2) {
            true => any_step(rng),
            false => beside(any_step(rng)),
        };
        match rng.below(5) {
            0 => vec![p, q, moved(p, away)],
            1 => self.edge_on(rng),
            // The edge goes on as far again.
            2 => {
                let beyond = moved(times(2, q), times(-1, p));
                vec![p, beyond, moved(beyond, away), moved(p, away)]
            }
            _ => vec![p, q, moved(q, away), moved(p, away)],
        }
    }

    /// In the plane of the eye and the hinge.
    fn edge_on(&self, rng: &mut Random) -> Vec<Place> {
        let [near, far] = [rng.between(1, 3), rng.between(4, 6)];
        let [p, q] = self.lines;
        let [before, behind] = [near, far].map(|depth| times(depth, p));
        match rng.once_in(4) {
            // An edge leads through the eye.
            true => vec![before, behind, moved(behind, any_step(rng))],
            false => vec![before, times(near, q), times(far, q), behind],
        }
    }

    /// Some of the four pieces that two lines through a place of the hinge cut
    /// out of a plane.
    fn around_a_corner(&self, rng: &mut Random) -> Vec<Vec<Place>> {
        let corner = self.ends()[rng.below(2)];
        let (one, other) = (any_step(rng), any_step(rng));
        let mut pieces = Vec::new();
        for (a, b) in [(1, 1), (-1, 1), (-1, -1), (1, -1)] {
            let [p, q] = [times(a, one), times(b, other)].map(|step| moved(corner, step));
            let piece = match rng.once_in(4) {
                true => vec![corner, p, q],
                false => vec![corner, p, moved(p, times(b, other)), q],
            };
            if !rng.once_in(3) {
                pieces.push(piece);
            }
        }
        pieces
    }
}

/// Often along right or up alone, or square to forward.
fn any_step(rng: &mut Random) -> Place {
    let mut step = [0; 3].map(|_| rng.between(-4, 4));
    match rng.below(6) {
        0 => (step[1], step[2]) = (0, 0),
        1 => (step[0], step[1]) = (0, 0),
        2 => step[1] = 0,
        _ => (),
    }
    step.map(|n| rng.pick(&[n, n, 2 * n]))
}

/// To where the lines beside a sight line are: right of it, or below. Of leaves
/// that go there several are met.
fn beside([across, ahead, above]: Place) -> Place {
    [across.abs(), ahead, -above.abs()]
}

fn moved(place: Place, step: Place) -> Place {
    [0, 1, 2].map(|k| place[k] + step[k])
}

fn times(n: i64, place: Place) -> Place {
    place.map(|part| n * part)
}

/// A wide patch beyond the hinges: "the rock behind".
fn behind(rng: &mut Random, view: &View) -> Vec<Place> {
    let depth = rng.between(7, 9);
    let [x, y, z] = [view.width, view.lens, view.height].map(|n| depth * i64::from(n));
    vec![[-x, y, -z], [x, y, -z], [x, y, z], [-x, y, z]]
}

/// The patch at these places, if they are in range and off one line.
fn stands(view: &View, places: &[Place]) -> Option<Corners> {
    let corner = |place: &Place| {
        let from = view.axes.sum(place.map(i128::from)).map(|n| n as i64);
        point([0, 1, 2].map(|k| i64::from(view.eye()[k]) + from[k]))
    };
    let corners: Option<Vec<Point>> = places.iter().map(corner).collect();
    corners.filter(|c| normal(c[0], c[1], c[2]) != [0, 0, 0])
}
