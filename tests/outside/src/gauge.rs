//! A scene that tells the eye: from no other station near by does it show what it
//! shows from its own.
//!
//! It is a wall of squares, one unit wide, each a panel of its own. Of four
//! lines, one to each corner of a window, each runs to a point of the wall where
//! four squares meet, and goes by F-3 to the one on the right and below. A unit to
//! the side, up or down leads it to the next square; so does one forward, as
//! the lines run at half a right angle.

use crate::axes::{Axes, LEVEL};
use crate::call::{Call, View};
use crate::scene::{Patch, Scene};
use crate::station::Station::Units;
use crate::stations::in_one_node;
use crate::survey::Done;
use crate::vector::Point;

/// How far the wall is.
const AHEAD: i16 = 8;
/// How many squares there are around the one that is shown, each way.
const AROUND: i16 = 2;

pub struct Gauge {
    pub scene: Scene,
    /// From its own station.
    pub view: View,
    picture: Vec<u16>,
}

impl Gauge {
    /// The gauge of an eye within ±10,000. Where the wall would lie beyond, it
    /// stands behind the eye, and the camera is turned about.
    pub fn of(eye: Point) -> Gauge {
        let turn = if eye[1] > 10_000 - AHEAD { -1 } else { 1 };
        let view = View {
            station: Units(eye),
            axes: Axes {
                right: [turn, 0, 0],
                forward: [0, turn, 0],
                ..LEVEL
            },
            width: 2,
            height: 2,
            lens: 1,
        };
        let mut patches = Vec::new();
        let mut picture = Vec::new();
        for [side, above] in [[-1, 1], [1, 1], [-1, -1], [1, -1]] {
            let met = [eye[0] + turn * side * AHEAD, eye[2] + above * AHEAD];
            let first = patches.len();
            let around = squares(met, turn, eye[1] + turn * AHEAD);
            let own = around.iter().position(|(place, _)| *place == [0, 0]);
            picture.push(own.map_or(0, |k| (first + k) as u16 + 1));
            patches.extend(around.into_iter().map(|(_, corners)| corners));
        }
        let numbered = patches.into_iter().zip(1..);
        let numbered = numbered.map(|(corners, panel)| Patch { panel, corners });
        Gauge {
            scene: in_one_node(numbered.collect()),
            view,
            picture,
        }
    }

    /// What its own station shows.
    pub fn done(&self) -> Done {
        let cells = |panel: u16| self.picture.iter().filter(|&&own| own == panel).count();
        let records = self.scene.records.iter();
        let table = records.map(|record| cells(record.panel) as u32).collect();
        Done::told(self.picture.clone(), table, &self.view.whole())
    }

    pub fn call(&self) -> Call {
        Call::new(self.scene.write(), self.view)
    }
}

/// The squares around a point of the wall that are within ±10,000, by their
/// places from the one that is shown: on the camera's right, and below.
fn squares([x, z]: [i16; 2], turn: i16, y: i16) -> Vec<([i16; 2], Vec<Point>)> {
    let mut all = Vec::new();
    for up in -AROUND..=AROUND {
        for across in -AROUND..=AROUND {
            let [near, far] = [across, across + 1].map(|n| x + turn * n);
            let [low, high] = [up - 1, up].map(|n| z + n);
            let corners = [[near, low], [far, low], [far, high], [near, high]];
            let within = |n: &i16| (-10_000..=10_000).contains(n);
            if corners.iter().flatten().all(within) {
                let corners = corners.map(|[x, z]| [x, y, z]).to_vec();
                all.push(([across, up], corners));
            }
        }
    }
    all
}
