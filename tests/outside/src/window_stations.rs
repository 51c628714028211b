//! Stations of whole windows: pictures told at once, and the tiles that cover them,
//! in any order.

use crate::call::{Call, View};
use crate::scene::Scene;
use crate::stations::{in_one_node, piece, s, t, window, VIEW};
use crate::survey::{counts, Done, Due};
use crate::tile::Tile;
use crate::tile_cases::{Group, WholeCase};
use crate::trial::{counted, digits, Trial};
use crate::turned::{quarters, ROLLED};
use crate::whole::Whole;

/// A window's scene and view, its picture, and tiles that cover it once.
struct Covered {
    name: &'static str,
    scene: Scene,
    view: View,
    rows: String,
    tiles: Vec<[u16; 4]>,
}

/// The trials and their groups.
pub fn window_stations() -> (Vec<Trial>, Vec<Group>) {
    let (mut trials, mut groups) = (Vec::new(), Vec::new());
    for (counter, covered) in (0..).zip(windows()) {
        let places = trials.len()..trials.len() + covered.tiles.len();
        trials.extend(covered.trials(counter));
        groups.push(Group {
            places: places.collect(),
            whole: covered.whole(counter),
        });
    }
    (trials, groups)
}

fn windows() -> Vec<Covered> {
    let mut all = of_s();
    all.extend(of_quarters());
    all.extend(of_wide());
    all
}

fn of_s() -> Vec<Covered> {
    let rows = || "0000 0550 0550 0000".to_string();
    let fours = [[0, 0, 2, 2], [2, 0, 2, 2], [0, 2, 2, 2], [2, 2, 2, 2]];
    let cells = (0..16).map(|at| [at % 4, at / 4, 1, 1]);
    let around = [
        [0, 0, 3, 1],
        [3, 0, 1, 3],
        [1, 3, 3, 1],
        [0, 1, 1, 3],
        [1, 1, 2, 2],
    ];
    let covered = |name, tiles| Covered {
        name,
        scene: s(50),
        view: VIEW,
        rows: rows(),
        tiles,
    };
    vec![
        covered("S by one", vec![[0, 0, 4, 4]]),
        covered("S by four", fours.to_vec()),
        covered(
            "S by four, the last first",
            fours.into_iter().rev().collect(),
        ),
        covered("S by rows", (0..4).map(|j| [0, j, 4, 1]).collect()),
        covered("S by columns", (0..4).map(|i| [i, 0, 1, 4]).collect()),
        covered("S cell by cell", cells.clone().collect()),
        covered("S cell by cell, from the last", cells.rev().collect()),
        covered("S around the middle", around.to_vec()),
        Covered {
            scene: t(0),
            rows: rows().replace('5', "7"),
            ..covered("T by four", fours.to_vec())
        },
    ]
}

fn of_quarters() -> Vec<Covered> {
    let tiles = vec![[0, 0, 2, 3], [2, 0, 3, 1], [2, 1, 1, 2], [3, 1, 2, 2]];
    let rolled = View {
        axes: ROLLED,
        ..window(4, 2, 4)
    };
    vec![
        Covered {
            name: "quarters",
            scene: quarters(),
            view: window(5, 3, 4),
            rows: "11220 33440 33440".to_string(),
            tiles,
        },
        Covered {
            name: "quarters, rolled",
            scene: quarters(),
            view: rolled,
            rows: "2244 1133".to_string(),
            tiles: vec![[3, 0, 1, 2], [0, 0, 3, 1], [0, 1, 3, 1]],
        },
    ]
}

/// A row of 1,024 cells by a lens of 512, where a cell is two units wide at forward
/// 512, and a column of 512.
fn of_wide() -> Vec<Covered> {
    let board = |panel, first: i16, last: i16| {
        let side = |column: i16| 2 * column - 1_024;
        piece(panel, 512, [side(first), side(last + 1)], [-600, 600])
    };
    let boards = vec![board(3, 0, 99), board(4, 255, 256), board(5, 700, 1_023)];
    let row = [
        "3".repeat(100),
        "0".repeat(155),
        "44".into(),
        "0".repeat(443),
        "5".repeat(324),
    ];
    let tall = in_one_node(vec![piece(6, 512, [-600, 600], [-512, 256])]);
    vec![
        Covered {
            name: "a row of 1,024",
            scene: in_one_node(boards),
            view: window(1_024, 1, 512),
            rows: row.concat(),
            tiles: vec![
                [256, 0, 256, 1],
                [0, 0, 256, 1],
                [768, 0, 256, 1],
                [512, 0, 256, 1],
            ],
        },
        Covered {
            name: "a column of 512",
            scene: tall,
            view: window(1, 512, 512),
            rows: "0".repeat(128) + &"6".repeat(384),
            tiles: (0..4).map(|k| [0, 128 * k, 1, 128]).collect(),
        },
    ]
}

impl Covered {
    fn size(&self) -> [u16; 2] {
        [self.view.width, self.view.height]
    }

    /// Each tile's part of the picture; the counter passes from tile to tile.
    fn trials(&self, counter: u32) -> Vec<Trial> {
        let (picture, mut counter) = (digits(&self.rows), counter);
        let mut all = Vec::new();
        for &at in &self.tiles {
            let own = Tile::of(at);
            let places = own.places();
            let cells = places.map(|[x, y]| picture[y * usize::from(self.view.width) + x]);
            let cells: Vec<u16> = cells.collect();
            let table = counted(&self.scene, &cells);
            let mut call = Call::of_tile(self.scene.write(), self.view, own);
            call.counter = counter;
            let [left, top, width, height] = at;
            counter += u32::from([left + width, top + height] == self.size());
            all.push(Trial {
                name: format!("{}, tile {at:?}", self.name),
                call,
                due: Due {
                    result: Ok(Done::told(cells, table, &own)),
                    counter,
                },
            });
        }
        all
    }

    /// The counter rises by one, whichever tile comes last.
    fn whole(&self, counter: u32) -> WholeCase {
        let picture = digits(&self.rows);
        WholeCase {
            name: self.name.to_string(),
            group: counter,
            tiles: self.tiles.len(),
            window: [self.view.width, self.view.height, self.view.lens],
            due: Whole {
                counts: counts(&picture),
                patch_counts: counted(&self.scene, &picture),
                picture,
                counter: counter + 1,
            },
        }
    }
}
