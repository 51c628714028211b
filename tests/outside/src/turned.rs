//! Stations of a camera that is turned, with the pictures and answers due.

use crate::axes::{Axes, LEVEL};
use crate::call::{Call, View};
use crate::mount::with_part;
use crate::scene::{Patch, Scene};
use crate::station::Station::Units;
use crate::stations::{piece, scene_of, site, t, window, VIEW};
use crate::trial::{self, Trial};
use crate::vector::Point;

/// Quarter turns and half turns of the level view, named after what they do.
const TO_THE_RIGHT: Axes = axes([0, -1, 0], [1, 0, 0], [0, 0, 1]);
pub const ROLLED: Axes = axes([0, 0, -1], [0, 1, 0], [1, 0, 0]);
pub const UPSIDE_DOWN: Axes = axes([-1, 0, 0], [0, 1, 0], [0, 0, -1]);
const BACKWARD: Axes = axes([-1, 0, 0], [0, -1, 0], [0, 0, 1]);
const UPWARD: Axes = axes([1, 0, 0], [0, 0, 1], [0, -1, 0]);

const fn axes(right: Point, forward: Point, up: Point) -> Axes {
    Axes { right, forward, up }
}

/// A rectangle at forward 100, between two corners.
fn upright(panel: u16, low: [i16; 2], high: [i16; 2]) -> Patch {
    piece(panel, 100, [low[0], high[0]], [low[1], high[1]])
}

/// Panels 1 and 2 above, 3 and 4 below.
pub fn quarters() -> Scene {
    scene_of(vec![site(vec![
        upright(1, [-100, 0], [0, 100]),
        upright(2, [0, 0], [100, 100]),
        upright(3, [-100, -100], [0, 0]),
        upright(4, [0, -100], [100, 0]),
    ])])
}

fn two_bars() -> Scene {
    scene_of(vec![site(vec![
        upright(3, [10, -40], [60, -20]),
        upright(4, [-60, 20], [-10, 40]),
    ])])
}

/// A square to the right of the eye.
fn wall() -> Scene {
    let corners = [[-50, -50], [50, -50], [50, 50], [-50, 50]];
    scene_of(vec![site(vec![Patch {
        panel: 9,
        corners: corners.map(|[y, z]| [100, y, z]).to_vec(),
    }])])
}

/// Two rectangles overhead, panel 6 ahead of panel 8.
fn roof() -> Scene {
    let strip = |panel: u16, near: i16, far: i16| Patch {
        panel,
        corners: [[-50, near], [50, near], [50, far], [-50, far]]
            .map(|[x, y]| [x, y, 100])
            .to_vec(),
    };
    scene_of(vec![site(vec![strip(6, 0, 50), strip(8, -50, 0)])])
}

fn shows(name: &str, scene: &Scene, view: View, axes: Axes, rows: &str) -> Trial {
    trial::shows(name, scene, View { axes, ..view }, rows)
}

pub fn turned() -> Vec<Trial> {
    let mut all = of_quarters();
    all.extend(of_walls());
    all.extend(of_two_bars());
    all.extend(of_parts());
    all.extend(of_order());
    all
}

fn of_quarters() -> Vec<Trial> {
    let hundredfold = axes([100, 0, 0], [0, 100, 0], [0, 0, 100]);
    let shifted = axes([1, 0, 0], [1, 1, 0], [0, 0, 1]);
    [
        ("quarters, level", LEVEL, "1122 3344"),
        ("quarters, rolled", ROLLED, "2244 1133"),
        ("quarters, upside down", UPSIDE_DOWN, "4433 2211"),
        ("quarters, forward to the right", shifted, "2200 4400"),
        ("quarters, a hundredfold", hundredfold, "1122 3344"),
    ]
    .map(|(name, axes, rows)| shows(name, &quarters(), window(4, 2, 4), axes, rows))
    .into()
}

fn of_walls() -> Vec<Trial> {
    let aslant = axes([100, -100, 0], [100, 100, 0], [0, 0, 100]);
    let beyond = View {
        station: Units([0, 200, 0]),
        ..VIEW
    };
    [
        (
            "wall, to the right",
            wall(),
            VIEW,
            TO_THE_RIGHT,
            "0000 0990 0990 0000",
        ),
        ("wall, level", wall(), VIEW, LEVEL, "0000 0000 0000 0000"),
        ("wall, aslant", wall(), VIEW, aslant, "0009 0009 0009 0009"),
        ("roof, upward", roof(), VIEW, UPWARD, "0000 0880 0660 0000"),
        (
            "T from beyond, backward",
            t(0),
            beyond,
            BACKWARD,
            "0000 0550 0550 0000",
        ),
    ]
    .map(|(name, scene, view, axes, rows)| shows(name, &scene, view, axes, rows))
    .into()
}

/// Bars of few rows: a camera that looks for them in the wrong rows shows.
fn of_two_bars() -> Vec<Trial> {
    let left = axes([1, 0, 1], [0, 2, 0], [-1, 0, 1]);
    let right = axes([1, 0, -1], [0, 2, 0], [1, 0, 1]);
    let level_rows = "000000000 000000000 004400000 000000000 000003300 000000000 000000000";
    let left_rows = "000440000 000044000 000000000 000000000 000000000 000330000 000033000";
    let right_rows = "000000000 000000000 004000030 044000330 040000300 000000000 000000000";
    [
        ("two bars, level", LEVEL, level_rows),
        ("two bars, rolled left", left, left_rows),
        ("two bars, rolled right", right, right_rows),
    ]
    .map(|(name, axes, rows)| shows(name, &two_bars(), window(9, 7, 8), axes, rows))
    .into()
}

/// A scene without nodes, which shows nothing wherever the camera looks.
fn blank(name: &str, axes: Axes) -> Trial {
    shows(name, &Scene::default(), VIEW, axes, &"0".repeat(16))
}

fn refused(name: &str, axes: Axes, number: u32, change: impl Fn(&mut Call)) -> Trial {
    let mut call = blank(name, axes).call;
    change(&mut call);
    trial::refused(name, call, number)
}

/// Each of the nine parts at its ends, and just beyond.
fn of_parts() -> Vec<Trial> {
    let mut all = Vec::new();
    for k in 0..9 {
        for n in [-100, 100] {
            all.push(blank(&format!("part {k} is {n}"), with_part(k, n)));
        }
        for n in [-101, 101] {
            let name = format!("part {k} is {n}");
            all.push(refused(&name, with_part(k, n), 14, |_| ()));
        }
    }
    all
}

/// What question 14 refuses besides, and its place between 10 and 11.
fn of_order() -> Vec<Trial> {
    let mirrored = axes([-1, 0, 0], LEVEL.forward, LEVEL.up);
    let flat = axes(LEVEL.right, LEVEL.forward, LEVEL.forward);
    let out = with_part(1, 101);
    vec![
        refused("right turned about", mirrored, 14, |_| ()),
        refused("up is forward", flat, 14, |_| ()),
        refused("no vectors", axes([0; 3], [0; 3], [0; 3]), 14, |_| ()),
        refused("lens 0 and a part 101", out, 10, |c| c.view.lens = 0),
        refused("a part 101 and a short picture", out, 14, |c| {
            c.picture_len -= 1
        }),
    ]
}
