//! Sight lines: one line, every patch.

use std::cmp::Ordering;

use crate::call::View;
use crate::gate::patch_normal;
use crate::scene::Patch;
use crate::vector::{cross, dot, minus, times, wide, Vector};

/// How a sight line is read.
#[derive(Clone, Copy, Debug, PartialEq, Eq)]
pub enum Sight {
    /// By itself, as before F-3: along an edge it meets nothing.
    Plain,
    /// "as the lines just beside it".
    Beside,
}

/// "A cell's direction is (2i + 1 − width) times right plus lens times forward
/// plus (height − 1 − 2j) times up."
pub fn direction(view: &View, i: usize, j: usize) -> Vector {
    let [width, height, lens] = [view.width, view.height, view.lens].map(i128::from);
    let (i, j) = (i as i128, j as i128);
    view.axes.sum([2 * i + 1 - width, lens, height - 1 - 2 * j])
}

/// A line from the eye, together with all those just beside it.
#[derive(Clone, Copy, Debug)]
pub struct Line {
    pub eye: Vector,
    /// A direction, and what is added to it in steps: the first step is any
    /// small enough, the second any small enough beside the first.
    pub along: [Vector; 3],
}

impl Line {
    /// One line alone: nothing is added to its direction.
    pub fn alone(eye: Vector, direction: Vector) -> Line {
        Line {
            eye,
            along: [direction, [0; 3], [0; 3]],
        }
    }

    /// The line of a cell. "whose direction has right times any small enough
    /// step above 0 added, and up times any step above 0 small enough beside
    /// that taken away": the view's own right and up.
    pub fn of(sight: Sight, view: &View, i: usize, j: usize) -> Line {
        let [right, _, up] = view.axes.vectors().map(wide);
        let line = Line::alone(wide(view.eye()), direction(view, i, j));
        match sight {
            Sight::Plain => line,
            Sight::Beside => Line {
                along: [line.along[0], right, times(-1, up)],
                ..line
            },
        }
    }

    /// Which part of the direction decides the sign of its product with a
    /// vector, and that sign: the first part whose product is not 0, as what a
    /// small enough step adds behind it cannot turn it. None where all are 0.
    ///
    /// No product leaves i128: parts of normals and edges are up to 8 · 10⁸,
    /// eye-to-corner products up to 4.8 · 10¹³, so parts of what two distances
    /// are compared by are up to 7.7 · 10²²; parts of directions are below 10⁶.
    pub fn decided(&self, v: Vector) -> Option<(usize, i128)> {
        let signs = self.along.iter().map(|&part| dot(part, v).signum());
        signs.enumerate().find(|&(_, sign)| sign != 0)
    }

    /// The sign of the product, 0 where the lines all lie square to the vector.
    pub fn sign(&self, v: Vector) -> i128 {
        self.decided(v).map_or(0, |(_, sign)| sign)
    }
}

/// "the eye-to-corner product (first corner − eye) · n".
pub fn eye_to_corner(patch: &Patch, eye: Vector) -> i128 {
    dot(minus(wide(patch.corners[0]), eye), patch_normal(patch))
}

/// "(v − eye) × (w − eye)" for every edge from v to w.
pub fn edges(patch: &Patch, eye: Vector) -> impl Iterator<Item = Vector> + '_ {
    let count = patch.corners.len();
    (0..count).map(move |k| {
        let v = minus(wide(patch.corners[k]), eye);
        let w = minus(wide(patch.corners[(k + 1) % count]), eye);
        cross(v, w)
    })
}

/// "It meets a patch when, for every edge from v to w, [the direction's
/// product] is not zero and has the sign of the eye-to-corner product, also not
/// zero."
pub fn met(patch: &Patch, line: &Line) -> bool {
    let sign = eye_to_corner(patch, line.eye).signum();
    sign != 0 && edges(patch, line.eye).all(|edge| line.sign(edge) == sign)
}

/// The vector whose product with the direction tells which of two patches is
/// closer. The distance is s / (direction · n) with s the eye-to-corner product,
/// above 0 where the patch is met. So s / (direction · m) is below
/// t / (direction · n) just where direction · (t m − s n) has the sign of s t.
pub fn apart([one, other]: [&Patch; 2], eye: Vector) -> Vector {
    let [s, t] = [one, other].map(|patch| eye_to_corner(patch, eye));
    minus(times(t, patch_normal(one)), times(s, patch_normal(other)))
}

/// The distances of two met patches, compared exactly: which is closer.
pub fn against(pair: [&Patch; 2], line: &Line) -> Ordering {
    let [s, t] = pair.map(|patch| eye_to_corner(patch, line.eye).signum());
    0.cmp(&(line.sign(apart(pair, line.eye)) * s * t))
}

/// The number of the patch that has a cell, None where none is met.
pub type Holder = Option<usize>;

/// "the met patch at the least distance, the lowest panel number where several
/// are level there"; and "Where two patches of one panel overlap in a plane,
/// the earlier in the list has the cell." A number and no patch, as one patch
/// may stand in the list twice.
pub fn holder(patches: &[Patch], line: &Line) -> Holder {
    let numbers = (0..patches.len()).filter(|&k| met(&patches[k], line));
    first(patches, numbers, line)
}

/// The one that has the cell of those that are met, told by their numbers.
pub fn first(patches: &[Patch], numbers: impl Iterator<Item = usize>, line: &Line) -> Holder {
    numbers.min_by(|&k, &m| {
        let level = (patches[k].panel, k).cmp(&(patches[m].panel, m));
        against([&patches[k], &patches[m]], line).then(level)
    })
}

/// "A cell's closest panel is that of the met patch [...], and 0 where none is
/// met."
pub fn closest(patches: &[Patch], line: &Line) -> u16 {
    panel_of(patches, holder(patches, line))
}

pub fn panel_of(patches: &[Patch], holder: Holder) -> u16 {
    holder.map_or(0, |k| patches[k].panel)
}
