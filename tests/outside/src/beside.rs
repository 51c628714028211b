//! What the lines just beside the cells' own lines decided, in an accepted
//! picture and in a whole run.

use crate::call::{Call, View};
use crate::gate::patch_normal;
use crate::ray::{apart, edges, eye_to_corner, holder, met, Line, Sight};
use crate::scene::Patch;
use crate::survey::lines;
use crate::vector::{dot, wide, Vector};

/// The ways in which something may be decided beside a line.
const WAYS: [&str; 6] = [
    "that another patch or none would have by the line itself",
    "whose patch has an edge on the line, and right decides",
    "whose patch has an edge on the line, and up decides",
    "of patches level on the line, and right decides",
    "of patches level on the line, and up decides",
    "at a joint with a patch seen edge on",
];

/// In how many pictures, and in how many of their cells, each of these was met
/// with.
#[derive(Default)]
pub struct Beside {
    pictures: [u64; WAYS.len()],
    cells: [u64; WAYS.len()],
}

impl Beside {
    pub fn add(&mut self, patches: &[Patch], call: &Call) {
        let told = Told::of(patches, &call.view);
        let mut seen = [0; WAYS.len()];
        for line in lines(Sight::Beside, &call.view, &call.tile) {
            if told.edges.iter().any(|&edge| is_on(&line, edge)) {
                let ways = told.ways(&line);
                (0..WAYS.len()).for_each(|k| seen[k] += u64::from(ways[k]));
            }
        }
        for (k, cells) in seen.into_iter().enumerate() {
            self.pictures[k] += u64::from(cells > 0);
            self.cells[k] += cells;
        }
    }

    /// Each way's name with its pictures and cells.
    pub fn told(&self) -> [(u64, u64, &'static str); WAYS.len()] {
        std::array::from_fn(|k| (self.pictures[k], self.cells[k], WAYS[k]))
    }
}

/// Does the line run along the edge, which is told by its vector?
fn is_on(line: &Line, edge: Vector) -> bool {
    dot(line.along[0], edge) == 0
}

/// Patches as seen from one eye.
struct Told<'a> {
    patches: &'a [Patch],
    /// The edges of those whose plane does not hold the eye: where none is on a
    /// line, nothing is decided beside it.
    edges: Vec<Vector>,
    /// Normals of the others.
    edge_on: Vec<Vector>,
}

impl Told<'_> {
    fn of<'a>(patches: &'a [Patch], view: &View) -> Told<'a> {
        let eye = wide(view.eye());
        let (flat, open): (Vec<&Patch>, Vec<&Patch>) =
            patches.iter().partition(|p| eye_to_corner(p, eye) == 0);
        Told {
            patches,
            edges: open.iter().flat_map(|p| edges(p, eye)).collect(),
            edge_on: flat.into_iter().map(patch_normal).collect(),
        }
    }

    /// Which of the ways are met with on a line, in their order.
    fn ways(&self, line: &Line) -> [bool; WAYS.len()] {
        let own = holder(self.patches, line);
        let alone = Line::alone(line.eye, line.along[0]);
        let mut ways = [false; WAYS.len()];
        ways[0] = own != holder(self.patches, &alone);
        let Some(own) = own.map(|k| &self.patches[k]) else {
            return ways;
        };
        let others = self.patches.iter().filter(|p| met(p, line));
        let others = others.map(|other| apart([own, other], line.eye));
        let sides = edges(own, line.eye);
        for (from, vector) in sides.map(|v| (1, v)).chain(others.map(|v| (3, v))) {
            if let Some((decides @ 1.., _)) = line.decided(vector) {
                ways[from + decides - 1] = true;
            }
        }
        let is_flat = |&n: &Vector| dot(line.along[0], n) == 0;
        ways[5] = (ways[1] || ways[2]) && self.edge_on.iter().any(is_flat);
        ways
    }
}
