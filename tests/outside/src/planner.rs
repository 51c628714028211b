//! Trees that cut: a piece through which a dividing plane passes is cut there,
//! where the cut's ends are whole numbers; another plane is tried where they are
//! not.

use crate::cut::{halves, straddles};
use crate::gate::{on_plane, on_side};
use crate::random::Random;
use crate::scene::Patch;
use crate::tree::{
    is_plane, other_points, plane_between, plane_of, turned_over, Branch, Plane, Tree,
};

pub struct Planner<'a> {
    pub rng: &'a mut Random,
    /// Nodes without a patch that may still be planted.
    pub spare: usize,
    /// Patches that may still come from cuts.
    pub cuts: usize,
}

#[derive(Default)]
struct Parted {
    on: Vec<Patch>,
    sides: [Vec<Patch>; 2],
    cuts: usize,
}

impl Parted {
    /// None where a piece cannot be cut.
    fn by(plane: &Plane, patches: &[Patch]) -> Option<Parted> {
        let mut parted = Parted::default();
        for patch in patches {
            if straddles(&patch.corners, plane) {
                let parts = halves(&patch.corners, plane)?;
                parted.cuts += 1;
                for (side, corners) in parted.sides.iter_mut().zip(parts) {
                    let panel = patch.panel;
                    side.push(Patch { panel, corners });
                }
            } else if on_plane(plane, patch) {
                parted.on.push(patch.clone());
            } else {
                let is_negative = on_side(plane, -1, patch);
                parted.sides[usize::from(is_negative)].push(patch.clone());
            }
        }
        Some(parted)
    }
}

impl Planner<'_> {
    /// The tree of the pieces; None where no plane was found for some of them.
    pub fn plant(&mut self, mut patches: Vec<Patch>) -> Option<Branch> {
        if patches.is_empty() {
            return Some(None);
        }
        self.rng.shuffle(&mut patches);
        let planes = self.planes(&patches);
        let (plane, mut parted) = planes
            .into_iter()
            .find_map(|plane| Some((plane, self.serves(&plane, &patches)?)))?;
        self.spare -= usize::from(parted.on.is_empty());
        self.cuts -= parted.cuts;
        parted.on.sort_by_key(|patch| patch.panel);
        let points = other_points(self.rng, plane);
        if turned_over(&plane, &points) {
            parted.sides.reverse();
        }
        let [positive, negative] = parted.sides;
        Some(Some(Box::new(Tree {
            plane: points,
            patches: parted.on,
            positive: self.plant(positive)?,
            negative: self.plant(negative)?,
        })))
    }

    /// Those of the pieces in any order; before them now and then others, along
    /// an edge or between corners.
    fn planes(&mut self, patches: &[Patch]) -> Vec<Plane> {
        let mut planes = Vec::new();
        while self.spare > 0 && self.rng.once_in(2) {
            planes.push(match self.rng.once_in(2) {
                true => plane_between(self.rng, patches),
                false => self.along_an_edge(patches),
            });
        }
        planes.extend(patches.iter().map(plane_of));
        planes.retain(is_plane);
        planes
    }

    /// Through an edge, leaning on its piece in some way.
    fn along_an_edge(&mut self, patches: &[Patch]) -> Plane {
        let corners = self.rng.pick(patches).corners;
        let at = self.rng.below(corners.len());
        let (v, w) = (corners[at], corners[(at + 1) % corners.len()]);
        let step = [0; 3].map(|_| self.rng.between(-2, 2) as i16);
        [v, w, [0, 1, 2].map(|k| v[k] + step[k])]
    }

    fn serves(&self, plane: &Plane, patches: &[Patch]) -> Option<Parted> {
        let parted = Parted::by(plane, patches)?;
        let both = parted.sides.iter().all(|side| !side.is_empty());
        let moves_on = !parted.on.is_empty() || (self.spare > 0 && both);
        (moves_on && parted.cuts <= self.cuts).then_some(parted)
    }
}
