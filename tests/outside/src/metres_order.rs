//! Question 15 in its place between 9 and 10.

use crate::metres::asked;
use crate::scene::Scene;
use crate::station::Station::{self, Units};
use crate::stations::{in_one_node, s, square};
use crate::trial::Trial;

const NAN: f64 = f64::NAN;

pub fn of_order() -> Vec<Trial> {
    let mut all = of_call();
    all.extend(of_no_double());
    all.extend(of_units());
    all.extend(of_scenes());
    all
}

fn of_call() -> Vec<Trial> {
    let nan = Station::metres([0.0, 0.0, NAN]);
    let far = Station::metres([64.0, 0.0, 0.0]);
    vec![
        asked("NaN in z only", nan, 15, |_| ()),
        asked("NaN, and a lens of 0", nan, 15, |c| c.view.lens = 0),
        asked("NaN, and a width of 0", nan, 15, |c| c.view.width = 0),
        asked("64 metres, and a width of 0", far, 15, |c| c.view.width = 0),
        asked("NaN, and right turned about", nan, 15, |c| {
            c.view.axes.right = [-1, 0, 0]
        }),
        asked("NaN, and a short picture", nan, 15, |c| c.picture_len -= 1),
        asked("NaN, and no counts", nan, 15, |c| c.counts_len = 0),
        asked("NaN, and no patch table", nan, 15, |c| {
            c.patch_counts_len = 0
        }),
        asked("NaN, and long lists", nan, 15, |c| c.unlit_len += 1),
        asked("NaN, and a short map", nan, 15, |c| c.lit_len -= 1),
        asked("NaN, and a full counter", nan, 15, |c| c.counter = u32::MAX),
        asked("NaN, and all of these", nan, 15, |c| {
            c.view.lens = 0;
            c.view.axes.right = [-1, 0, 0];
            (c.picture_len, c.counter) = (0, u32::MAX);
        }),
    ]
}

/// Doubles that pass, and a no to a later question.
fn of_no_double() -> Vec<Trial> {
    let fine = Station::metres([0.0625, 0.0, -0.0]);
    vec![
        asked("in metres, a lens of 0", fine, 10, |c| c.view.lens = 0),
        asked("in metres, up for forward", fine, 14, |c| {
            c.view.axes.forward = c.view.axes.up
        }),
        asked("in metres, a short picture", fine, 11, |c| {
            c.picture_len -= 1
        }),
        asked("in metres, a long map", fine, 11, |c| c.lit_len += 1),
        asked("in metres, a full counter", fine, 12, |c| {
            c.counter = u32::MAX
        }),
    ]
}

/// A station in units is never refused with 15.
fn of_units() -> Vec<Trial> {
    let mut all = Vec::new();
    for n in [-32_768, -10_001, 10_001, 32_767] {
        for axis in 0..3 {
            let name = format!("{n} units along axis {axis}");
            all.push(asked(&name, Units([0; 3]).with_part(axis, n), 10, |_| ()));
        }
    }
    all
}

/// S with a fault by which each question on scenes says no.
fn broken() -> Vec<(u32, Vec<u8>)> {
    let changed = |change: &dyn Fn(&mut Scene)| {
        let mut scene = s(50);
        change(&mut scene);
        scene.write()
    };
    let mut bytes = [s(50).write(), s(50).write()];
    bytes[0][0] = 0;
    bytes[1][8] += 1;
    let [version, offset] = bytes;
    vec![
        (1, version),
        (2, offset),
        (3, in_one_node(vec![square(5, 50, 10_001)]).write()),
        (4, changed(&|s| s.nodes[0].points[1] = s.nodes[0].points[0])),
        (5, changed(&|s| s.nodes[0].positive = 0)),
        (6, changed(&|s| s.records[0].count = 2)),
        (7, changed(&|s| s.records[0].panel = 0)),
        (8, changed(&|s| s.corners.swap(2, 3))),
        (9, changed(&|s| s.nodes[0].points[1][1] += 1)),
    ]
}

/// The scene's own number, whatever the station.
fn of_scenes() -> Vec<Trial> {
    let mut all = Vec::new();
    let far = Station::metres([0.0, -64.0, 0.0]);
    let nan = Station::metres([NAN, 0.0, 0.0]);
    for (number, scene) in broken() {
        for (name, station) in [("64 metres", far), ("NaN", nan)] {
            let name = format!("{name}, and a scene that {number} refuses");
            all.push(asked(&name, station, number, |c| {
                c.scene = scene.clone().into_boxed_slice()
            }));
        }
    }
    all
}
