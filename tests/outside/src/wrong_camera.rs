//! Cameras that are right but for one thing; the cases must find each.

use crate::axes::{Axes, LEVEL};
use crate::call::View;
use crate::ray::{direction, holder, Holder};
use crate::scene::Scene;
use crate::vector::{cross, dot, minus, wide, Point, Vector};
use crate::wrong_paint::{Cell, Look};

pub const CAMERAS: &[(&str, Look)] = &[
    ("always the level view", |s, c| turned(s, c, |_| LEVEL)),
    ("only forward turns", |s, c| {
        turned(s, c, |a| Axes {
            forward: a.forward,
            ..LEVEL
        })
    }),
    ("forward does not turn", |s, c| {
        turned(s, c, |a| Axes {
            forward: LEVEL.forward,
            ..a
        })
    }),
    ("up with the wrong sign: rows from the bottom", |s, c| {
        turned(s, c, |a| Axes {
            up: a.up.map(|n| -n),
            ..a
        })
    }),
    (
        "right with the wrong sign: columns from the right",
        |s, c| {
            turned(s, c, |a| Axes {
                right: a.right.map(|n| -n),
                ..a
            })
        },
    ),
    ("right and up exchanged", |s, c| {
        turned(s, c, |a| Axes {
            right: a.up,
            up: a.right,
            ..a
        })
    }),
    ("right and forward exchanged", |s, c| {
        turned(s, c, |a| Axes {
            right: a.forward,
            forward: a.right,
            ..a
        })
    }),
    ("forward and up exchanged", |s, c| {
        turned(s, c, |a| Axes {
            forward: a.up,
            up: a.forward,
            ..a
        })
    }),
    ("vectors as rows of a matrix, not columns", |s, c| {
        turned(s, c, |a| Axes::of([0, 1, 2].map(|k| part_of_each(a, k))))
    }),
    ("lens taken twice", |s, c| {
        let lens = 2 * c.view.lens;
        let view = View { lens, ..c.view };
        Cell { view, ..c }.holder(&s.patches())
    }),
    ("half a column off", |s, c| {
        seen(s, c, |view, along| minus(along, wide(view.axes.right)))
    }),
    ("half a row off", |s, c| {
        seen(s, c, |view, along| minus(along, wide(view.axes.up)))
    }),
    ("directions in 16 bits", |s, c| {
        seen(s, c, |_, along| along.map(|n| i128::from(n as i16)))
    }),
    ("rows that a level camera would need", |s, c| {
        in_rows(s, c, LEVEL, touches)
    }),
];

/// What the cell shows under other vectors.
fn turned(scene: &Scene, cell: Cell, turn: fn(Axes) -> Axes) -> Holder {
    let mut other = cell;
    other.view.axes = turn(cell.view.axes);
    other.holder(&scene.patches())
}

/// What the cell shows along another direction.
fn seen(scene: &Scene, cell: Cell, other: fn(&View, Vector) -> Vector) -> Holder {
    let mut line = cell.line();
    line.along[0] = other(&cell.view, line.along[0]);
    holder(&scene.patches(), &line)
}

fn part_of_each(axes: Axes, k: usize) -> Point {
    axes.vectors().map(|v| v[k])
}

/// A patch is tried only in the rows that it reaches, as its corners' sides tell
/// of the row's plane; the planes are those of a camera with these vectors.
pub fn in_rows(scene: &Scene, cell: Cell, axes: Axes, reaches: fn(&[i128]) -> bool) -> Holder {
    let other = View { axes, ..cell.view };
    let plane = cross(wide(axes.right), direction(&other, 0, cell.j));
    let side = |&p: &Point| dot(plane, minus(wide(p), wide(cell.view.eye())));
    cell.holder_among(scene, |_, patch| {
        let sides: Vec<i128> = patch.corners.iter().map(side).collect();
        reaches(&sides)
    })
}

/// Not all corners on one side of the row's plane, those on it counted to both.
fn touches(sides: &[i128]) -> bool {
    sides.iter().any(|&side| side >= 0) && sides.iter().any(|&side| side <= 0)
}
