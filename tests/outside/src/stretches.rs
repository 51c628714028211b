//! Stations of one row: the boards before leave stretches of it unlit, and those
//! behind are laid over these in each of the eight positions, over stretches of
//! one column, and over as many stretches as a row can have.

use crate::call::Call;
use crate::scene::{Patch, Scene};
use crate::stations::{piece, scene_of, site, window};
use crate::trial::{accepted, shows, Trial};

/// A panel over some columns, from the first to the last.
type Board = (u16, [i16; 2]);

/// At some distance forward; its sides lie midway between sight lines.
fn board(width: i16, forward: i16, (panel, [first, last]): Board) -> Patch {
    let side = |column: i16| forward * (2 * column - width);
    piece(
        panel,
        forward,
        [side(first), side(last + 1)],
        [-forward, forward],
    )
}

/// Layers of boards, the nearest first. The root has the farthest, and each node
/// the next nearer one below it, on the side of the eye.
fn layered(width: u16, layers: &[Vec<Board>]) -> Scene {
    let placed = |(k, boards): (usize, &Vec<Board>)| {
        let placed = boards
            .iter()
            .map(|&one| board(width as i16, k as i16 + 1, one));
        site(placed.collect())
    };
    let mut sites: Vec<_> = layers.iter().enumerate().rev().map(placed).collect();
    for k in 1..sites.len() {
        sites[k - 1].positive = k as u16;
    }
    scene_of(sites)
}

pub fn stretches() -> Vec<Trial> {
    let mut all = of_positions();
    all.extend(of_one_column());
    all.extend(of_many());
    all
}

/// Panel 2 behind panels 1 and 3, which leave some stretches.
fn behind(before: [Board; 2], width: u16, (name, span, row): (&str, [i16; 2], &str)) -> Trial {
    let scene = layered(width, &[before.to_vec(), vec![(2, span)]]);
    shows(name, &scene, window(width, 1, 1), row)
}

/// "Span I to J meets a stretch Min to Max in one of eight positions": here
/// columns 5 to 11, with one stretch to the left and one to the right.
fn of_positions() -> Vec<Trial> {
    let before = [(1, [2, 4]), (3, [12, 13])];
    [
        ("1: J < Min", [1, 3], "0211100000003300"),
        ("2: I ≤ Min, J < Max", [3, 7], "0011122200003300"),
        ("2: I = Min, J < Max", [5, 10], "0011122222203300"),
        ("3: I > Min, J < Max", [6, 8], "0011102220003300"),
        ("4: I ≤ Min, J = Max", [4, 11], "0011122222223300"),
        ("4: I = Min, J = Max", [5, 11], "0011122222223300"),
        ("5: I > Min, J = Max", [6, 11], "0011102222223300"),
        ("6: I ≤ Min, J > Max", [4, 14], "0011122222223320"),
        ("7: I > Min, J > Max", [6, 14], "0011102222223320"),
        ("7: I = Max, J > Max", [11, 12], "0011100000023300"),
        ("8: I > Max", [13, 14], "0011100000003320"),
        ("6, 6, 4", [0, 15], "2211122222223322"),
        ("7, 6, 2", [1, 14], "0211122222223320"),
    ]
    .map(|told| behind(before, 16, told))
    .into()
}

/// A stretch of one column, 3, with one to the left and one to the right.
fn of_one_column() -> Vec<Trial> {
    let before = [(1, [1, 2]), (3, [4, 5])];
    [
        ("I = J = Min = Max", [3, 3], "0112330"),
        ("I < Min = Max < J", [2, 4], "0112330"),
        ("I < Min = Max = J", [2, 3], "0112330"),
        ("I = Min = Max < J", [3, 5], "0112330"),
        ("J < Min = Max", [0, 2], "2110330"),
        ("I > Min = Max", [4, 6], "0110332"),
        ("from one to the next", [3, 6], "0112332"),
        ("from the first to the last", [0, 6], "2112332"),
    ]
    .map(|told| behind(before, 7, told))
    .into()
}

/// Boards of one column, on every so many columns of 256 from one on.
fn posts(panel: u16, from: i16, step: usize) -> Vec<Board> {
    let columns = (from..256).step_by(step);
    columns.map(|column| (panel, [column; 2])).collect()
}

/// 64 stretches of three columns, each split in its middle; 128 of one column,
/// and a wall of 256 columns behind them. The wall is the first patch, if there
/// is one, and the 128 posts are the others.
fn of_many() -> Vec<Trial> {
    let teeth = || posts(1, 1, 2);
    let split = || [posts(1, 3, 4), posts(2, 1, 4)];
    let wall = || vec![(3, [0, 255])];
    let walled = [split().to_vec(), vec![wall()]].concat();
    [
        ("posts in 64 stretches", split().to_vec(), "0201"),
        ("128 stretches", vec![teeth()], "01"),
        ("a wall behind 128", vec![teeth(), wall()], "31"),
        ("a wall behind the posts", walled, "3231"),
    ]
    .map(|(name, layers, part)| {
        let scene = layered(256, &layers);
        let mut cells = vec![1; scene.records.len()];
        if cells.len() > 128 {
            cells[0] = 128;
        }
        let call = Call::new(scene.write(), window(256, 1, 1));
        accepted(name, call, &part.repeat(256 / part.len()), &cells)
    })
    .into()
}
