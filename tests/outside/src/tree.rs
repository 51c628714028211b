//! Trees over patches: planes are chosen, and each patch goes on the plane, in
//! front or behind. A patch that straddles is discarded, never cut.

use crate::gate::{in_range, on_plane, on_side};
use crate::random::Random;
use crate::scene::Patch;
use crate::vector::{dot, normal, Point};

pub type Plane = [Point; 3];
pub type Branch = Option<Box<Tree>>;

pub struct Tree {
    pub plane: Plane,
    pub patches: Vec<Patch>,
    pub positive: Branch,
    pub negative: Branch,
}

pub fn is_plane(plane: &Plane) -> bool {
    normal(plane[0], plane[1], plane[2]) != [0, 0, 0] && plane.iter().all(in_range)
}

#[derive(Default)]
struct Split {
    on: Vec<Patch>,
    positive: Vec<Patch>,
    negative: Vec<Patch>,
    across: usize,
}

impl Split {
    fn of(plane: &Plane, patches: &[Patch]) -> Split {
        let mut split = Split::default();
        for patch in patches {
            if on_plane(plane, patch) {
                split.on.push(patch.clone());
            } else if on_side(plane, 1, patch) {
                split.positive.push(patch.clone());
            } else if on_side(plane, -1, patch) {
                split.negative.push(patch.clone());
            } else {
                split.across += 1;
            }
        }
        split
    }

    fn moves_on(&self) -> bool {
        !self.on.is_empty() || !(self.positive.is_empty() || self.negative.is_empty())
    }
}

pub struct Planter<'a> {
    pub rng: &'a mut Random,
    /// Planes at hand besides those of the patches.
    pub planes: Vec<Plane>,
    /// May a patch that straddles be discarded?
    pub discard: bool,
    /// Is the first patch's plane taken each time?
    pub chain: bool,
    /// Nodes without a patch that may still be planted.
    pub spare: usize,
}

impl Planter<'_> {
    /// The tree of the patches; None where no plane was found or no node is
    /// left for it.
    pub fn plant(&mut self, mut patches: Vec<Patch>) -> Option<Branch> {
        if patches.is_empty() {
            return Some(self.empty());
        }
        if !self.chain {
            self.rng.shuffle(&mut patches);
        }
        let (plane, mut split) = if self.discard {
            self.cheap(&patches)
        } else {
            self.clean(&patches)?
        };
        self.spare -= usize::from(split.on.is_empty());
        split.on.sort_by_key(|patch| patch.panel);
        let points = other_points(self.rng, plane);
        if turned_over(&plane, &points) {
            std::mem::swap(&mut split.positive, &mut split.negative);
        }
        Some(Some(Box::new(Tree {
            plane: points,
            patches: split.on,
            positive: self.plant(split.positive)?,
            negative: self.plant(split.negative)?,
        })))
    }

    /// No node, or now and then some without patches.
    fn empty(&mut self) -> Branch {
        if self.spare == 0 || !self.rng.once_in(8) {
            return None;
        }
        self.spare -= 1;
        let plane = any_plane(self.rng, 10);
        let (positive, negative) = (self.empty(), self.empty());
        Some(Box::new(Tree {
            plane,
            patches: Vec::new(),
            positive,
            negative,
        }))
    }

    /// Of a few planes the one that discards least.
    fn cheap(&mut self, patches: &[Patch]) -> (Plane, Split) {
        let mut best = self.through(patches, &patches[0]);
        let tries = if self.chain { 0 } else { self.rng.below(12) };
        for _ in 0..tries {
            let patch = self.rng.pick(patches);
            let (plane, split) = match self.rng.below(6) {
                0 if self.spare > 0 => self.between(patches),
                _ => self.through(patches, &patch),
            };
            if split.across < best.1.across {
                best = (plane, split);
            }
        }
        best
    }

    /// A plane that nothing straddles: of the planes at hand, those of the
    /// patches, or one with an empty side.
    fn clean(&mut self, patches: &[Patch]) -> Option<(Plane, Split)> {
        if self.spare > 30 && self.rng.once_in(6) {
            let (plane, split) = self.between(patches);
            if split.across == 0 {
                return Some((plane, split));
            }
        }
        let mut planes = self.planes.clone();
        planes.extend(patches.iter().map(plane_of));
        self.rng.shuffle(&mut planes);
        let spare = self.spare;
        planes.into_iter().find_map(|plane| {
            let split = Split::of(&plane, patches);
            let room = spare > 0 || !split.on.is_empty();
            (split.across == 0 && split.moves_on() && room).then_some((plane, split))
        })
    }

    fn through(&self, patches: &[Patch], patch: &Patch) -> (Plane, Split) {
        let plane = plane_of(patch);
        (plane, Split::of(&plane, patches))
    }

    fn between(&mut self, patches: &[Patch]) -> (Plane, Split) {
        let plane = plane_between(self.rng, patches);
        (plane, Split::of(&plane, patches))
    }
}

/// A plane through any three corners, or square to an axis at one.
pub fn plane_between(rng: &mut Random, patches: &[Patch]) -> Plane {
    let mut corner = || {
        let patch = &patches[rng.below(patches.len())];
        patch.corners[rng.below(patch.corners.len())]
    };
    let plane = [corner(), corner(), corner()];
    if is_plane(&plane) && !rng.once_in(2) {
        return plane;
    }
    let a = plane[0];
    let axis = rng.below(3);
    let inward = |n: i16| if n > 0 { n - 1 } else { n + 1 };
    let mut square = [a, a, a];
    square[1][(axis + 1) % 3] = inward(a[(axis + 1) % 3]);
    square[2][(axis + 2) % 3] = inward(a[(axis + 2) % 3]);
    square
}

/// The same plane, perhaps turned over, perhaps by other points.
pub fn other_points(rng: &mut Random, plane: Plane) -> Plane {
    let mut points = plane;
    rng.shuffle(&mut points);
    let [a, b, c] = points.map(|p| p.map(i64::from));
    let (s, t) = (rng.between(-2, 2), rng.pick(&[-2, -1, 1, 2]));
    let moved = [0, 1, 2].map(|k| a[k] + s * (b[k] - a[k]) + t * (c[k] - a[k]));
    match crate::polygon::point(moved) {
        Some(p) if rng.once_in(2) => [points[0], points[1], p],
        _ => points,
    }
}

pub fn turned_over(one: &Plane, other: &Plane) -> bool {
    let [m, n] = [one, other].map(|p| normal(p[0], p[1], p[2]));
    dot(m, n) < 0
}

pub fn plane_of(patch: &Patch) -> Plane {
    [patch.corners[0], patch.corners[1], patch.corners[2]]
}

pub fn any_plane(rng: &mut Random, reach: i64) -> Plane {
    loop {
        let plane = [[0; 3]; 3].map(|p| p.map(|_: i64| rng.between(-reach, reach) as i16));
        if is_plane(&plane) {
            return plane;
        }
    }
}
