//! A wall before a wall, both folded, with all their joints on sight lines: every
//! cell shows a panel, by the lines beside its own where that runs along a joint.

use crate::plant::{plane_of, Level, Maker};
use outside::call::View;
use outside::ray::direction;
use outside::scene::{Patch, Scene};
use outside::vector::{times, Point};

/// Cells from joint to joint.
const STEP: usize = 8;

/// The depth of every second upright joint, as so many times a cell's direction.
/// There the walls touch, so that on these sight lines two panels are level, and
/// the one that is farther beside them has the lower number.
const EVEN: i128 = 8;
const FRONT: Wall = Wall {
    odd: 9,
    above: 512,
    is_there: |column, row| (column + row) % 2 == 0,
};
const BACK: Wall = Wall {
    odd: 10,
    above: 0,
    is_there: |_, _| true,
};

struct Wall {
    /// The depth of the other upright joints.
    odd: i128,
    /// Its panels' numbers are above this one.
    above: usize,
    is_there: fn(usize, usize) -> bool,
}

/// The front wall lacks every second panel, so that the other shows. The view is
/// one with the eye at 0.
pub fn double_wall(view: &View) -> Scene {
    let columns = 0..usize::from(view.width) / STEP;
    let wedge = |column| [FRONT, BACK].map(|wall| wall.strip(view, column)).into();
    Maker::wedges(&columns.map(wedge).collect::<Vec<Vec<Level>>>())
}

impl Wall {
    /// The panels between two upright joints.
    fn strip(&self, view: &View, column: usize) -> Level {
        let rows = usize::from(view.height) / STEP;
        let panel = |row: usize| Patch {
            panel: (self.above + column * rows + row + 1) as u16,
            corners: [(0, 1), (1, 1), (1, 0), (0, 0)]
                .map(|(right, down)| self.corner(view, column + right, row + down))
                .into(),
        };
        let there = (0..rows).filter(|&row| (self.is_there)(column, row));
        let patches: Vec<Patch> = there.map(panel).collect();
        Level {
            plane: plane_of(&patches[0]),
            patches,
        }
    }

    fn corner(&self, view: &View, column: usize, row: usize) -> Point {
        let depth = if column % 2 == 1 { self.odd } else { EVEN };
        times(depth, direction(view, STEP * column, STEP * row)).map(|n| n as i16)
    }
}
