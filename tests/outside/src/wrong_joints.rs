//! Painters that read a line along an edge, or through a corner, in another way.

use std::cmp::Ordering;

use crate::axes::LEVEL;
use crate::ray::{edges, eye_to_corner, first, holder, met, Holder, Line};
use crate::scene::{Patch, Scene};
use crate::vector::{dot, minus, plus, times, wide, Vector};
use crate::wrong_camera::in_rows;
use crate::wrong_paint::{by, exact, Cell, Look};

pub const JOINTS: &[(&str, Look)] = &[
    ("both edges of a joint closed", |s, c| {
        by(s, c, touched, exact)
    }),
    ("both edges closed, left of the centre", |s, c| {
        by(s, c, if c.is_left() { touched } else { met }, exact)
    }),
    ("both edges closed, in a turned view", |s, c| {
        let level = c.view.axes == LEVEL;
        by(s, c, if level { met } else { touched }, exact)
    }),
    ("both edges of a joint open", |s, c| {
        stepped(s, c, |_, _| [NONE, NONE])
    }),
    ("both edges open, in a turned view", |s, c| {
        match c.view.axes == LEVEL {
            true => c.holder(&s.patches()),
            false => stepped(s, c, |_, _| [NONE, NONE]),
        }
    }),
    ("only right looked at", |s, c| {
        stepped(s, c, |right, _| [right, NONE])
    }),
    ("only up looked at", |s, c| {
        stepped(s, c, |_, up| [about(up), NONE])
    }),
    ("the axes x and z for the view's right and up", |s, c| {
        stepped(s, c, |_, _| [wide(LEVEL.right), about(wide(LEVEL.up))])
    }),
    ("equal steps right and down", |s, c| {
        stepped(s, c, |right, up| [minus(right, up), right])
    }),
    ("down before right", |s, c| {
        stepped(s, c, |right, up| [about(up), right])
    }),
    ("right taken away", |s, c| {
        stepped(s, c, |right, up| [about(right), about(up)])
    }),
    ("up added", |s, c| stepped(s, c, |right, up| [right, up])),
    ("right taken away and up added", |s, c| {
        stepped(s, c, |right, up| [about(right), up])
    }),
    ("steps of a tenth and a hundredth, not small enough", coarse),
    (
        "distances on the line itself, level ones by panel",
        |s, c| measured(s, c, |[along, _, _]| [along, NONE, NONE]),
    ),
    ("distances beside by right alone", |s, c| {
        measured(s, c, |[along, right, _]| [along, right, NONE])
    }),
    ("an edge beside not turned by the eye's side", |s, c| {
        by(s, c, unturned, exact)
    }),
    ("rows that only touch a patch left out", |s, c| {
        in_rows(s, c, c.view.axes, crosses)
    }),
];

const NONE: Vector = [0; 3];

fn about(v: Vector) -> Vector {
    times(-1, v)
}

/// What the cell shows with other steps beside its line, told from right and up.
fn stepped(scene: &Scene, cell: Cell, steps: fn(Vector, Vector) -> [Vector; 2]) -> Holder {
    let [right, _, up] = cell.view.axes.vectors().map(wide);
    let mut line = cell.line();
    line.along[1..].copy_from_slice(&steps(right, up));
    holder(&scene.patches(), &line)
}

/// What the cell shows along one line that is beside its own.
fn coarse(scene: &Scene, cell: Cell) -> Holder {
    let line = cell.line();
    let [along, right, down] = line.along;
    let whole = plus(plus(times(100, along), times(10, right)), down);
    holder(&scene.patches(), &Line::alone(line.eye, whole))
}

/// What the cell shows where the patches met are compared along other lines.
fn measured(scene: &Scene, cell: Cell, other: fn([Vector; 3]) -> [Vector; 3]) -> Holder {
    let (patches, line) = (scene.patches(), cell.line());
    let along = other(line.along);
    let there = (0..patches.len()).filter(|&k| met(&patches[k], &line));
    first(&patches, there, &Line { along, ..line })
}

/// Met also where the line itself runs along an edge, whatever is beside it.
fn touched(patch: &Patch, line: &Line) -> bool {
    let sign = eye_to_corner(patch, line.eye).signum();
    let on_side = |edge: Vector| dot(line.along[0], edge).signum() * sign >= 0;
    sign != 0 && edges(patch, line.eye).all(on_side)
}

/// Beside an edge, inside is where its product is above 0, though the patch
/// shows its other face.
fn unturned(patch: &Patch, line: &Line) -> bool {
    let sign = eye_to_corner(patch, line.eye).signum();
    let is_inside = |edge: Vector| match line.decided(edge) {
        Some((0, own)) => own == sign,
        Some((_, beside)) => beside > 0,
        None => false,
    };
    sign != 0 && edges(patch, line.eye).all(is_inside)
}

/// Corners on both sides of the row's plane.
fn crosses(sides: &[i128]) -> bool {
    let side = |wanted: Ordering| sides.iter().any(|side| side.cmp(&0) == wanted);
    side(Ordering::Less) && side(Ordering::Greater)
}
