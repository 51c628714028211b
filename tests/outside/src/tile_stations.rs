//! Stations of tiles: pictures, words and counters of tiles by themselves. The ends of
//! tiles and of their lengths are in `tile_ends`, whole windows in `window_stations`.

use crate::axes::{Axes, LEVEL};
use crate::call::{Call, View};
use crate::map_stations::{Words, ALL};
use crate::scene::Scene;
use crate::station::Station;
use crate::stations::{in_one_node, piece, s, window, VIEW};
use crate::tile::Tile;
use crate::tile_ends::tile_ends;
use crate::trial::{accepted, counted, digits, Trial};
use crate::turned::{quarters, ROLLED};

pub fn tile_stations() -> Vec<Trial> {
    let mut all = of_s();
    all.extend(of_joints());
    all.extend(of_turned());
    all.extend(of_wide());
    all.extend(of_pieces());
    all.extend(tile_ends());
    all
}

/// A tile with its picture and its patches' cells; does the counter rise with it?
pub fn drawn(name: &str, call: Call, rows: &str, cells: &[u32], rises: bool) -> Trial {
    let mut trial = accepted(name, call, rows, cells);
    trial.due.counter = u32::from(rises);
    trial
}

/// The same where no panel stands on two patches.
fn tile(name: &str, seen: (&Scene, View), at: [u16; 4], rows: &str, rises: bool) -> Trial {
    let call = Call::of_tile(seen.0.write(), seen.1, Tile::of(at));
    let name = format!("{name}, tile {at:?}");
    drawn(&name, call, rows, &counted(seen.0, &digits(rows)), rises)
}

/// A tile as if it were a window of its own would show 5 5 / 5 5 in each place.
fn of_s() -> Vec<Trial> {
    [
        ([0, 0, 2, 2], "00 05", false),
        ([2, 0, 2, 2], "00 50", false),
        ([0, 2, 2, 2], "05 00", false),
        ([2, 2, 2, 2], "50 00", true),
        ([1, 1, 2, 2], "55 55", false),
        ([0, 0, 4, 4], "0000 0550 0550 0000", true),
        ([0, 1, 4, 1], "0550", false),
        ([2, 0, 1, 4], "0 5 5 0", false),
        ([1, 0, 3, 3], "000 550 550", false),
        ([0, 2, 3, 2], "055 000", false),
        ([1, 3, 3, 1], "000", true),
        ([3, 1, 1, 3], "0 0 0", true),
        ([3, 3, 1, 1], "0", true),
        ([2, 3, 1, 1], "0", false),
        ([3, 2, 1, 1], "0", false),
        ([0, 0, 1, 1], "0", false),
        ([2, 1, 1, 1], "5", false),
    ]
    .map(|(at, rows, rises)| tile("S", (&s(50), VIEW), at, rows, rises))
    .into()
}

/// Edges on sight lines: the joint rule is that of the window's lines.
fn of_joints() -> Vec<Trial> {
    let five = window(5, 3, 4);
    let of_s = [
        ([1, 1, 1, 1], "5", false),
        ([2, 1, 1, 1], "0", false),
        ([1, 2, 1, 1], "0", false),
        ([1, 1, 3, 3], "500 000 000", true),
    ]
    .map(|(at, rows, rises)| tile("half-width 25", (&s(25), VIEW), at, rows, rises));
    let of_quarters = [
        ([0, 0, 2, 3], "11 33 33", false),
        ([2, 0, 3, 1], "220", false),
        ([2, 1, 1, 2], "4 4", false),
        ([3, 1, 2, 2], "40 40", true),
        ([0, 1, 5, 1], "33440", false),
        ([1, 0, 3, 2], "122 344", false),
    ]
    .map(|(at, rows, rises)| tile("quarters", (&quarters(), five), at, rows, rises));
    of_s.into_iter().chain(of_quarters).collect()
}

/// The camera is the window's, whatever the tile.
fn of_turned() -> Vec<Trial> {
    let view = |axes: Axes| View {
        axes,
        ..window(4, 2, 4)
    };
    let aside = Axes {
        forward: [1, 1, 0],
        ..LEVEL
    };
    let metres = View {
        station: Station::metres([0.001, -0.002, 0.0]),
        ..VIEW
    };
    let (rolled, aside) = (view(ROLLED), view(aside));
    let of_quarters = [
        ("rolled", rolled, [1, 0, 2, 2], "24 13", false),
        ("rolled", rolled, [3, 1, 1, 1], "3", true),
        ("rolled", rolled, [0, 0, 3, 1], "224", false),
        ("to the right", aside, [1, 0, 2, 2], "20 40", false),
    ]
    .map(|(name, view, at, rows, rises)| tile(name, (&quarters(), view), at, rows, rises));
    let of_s = [
        ([1, 1, 3, 2], "550 550", false),
        ([2, 2, 2, 2], "50 00", true),
    ]
    .map(|(at, rows, rises)| tile("metres", (&s(50), metres), at, rows, rises));
    of_quarters.into_iter().chain(of_s).collect()
}

/// S in 1,024 by 512 cells: by a lens of 512 lit from column 384 to 639 and from row
/// 128 to 383, by one of 1,024 from column 256 to 767 in every row.
fn of_wide() -> Vec<Trial> {
    let [near, far] = [512, 1_024].map(|lens| window(1_024, 512, lens));
    let all = "5".repeat(256 * 128);
    let none = "0".repeat(256 * 128);
    let [low, high] = ["0".repeat(128), "5".repeat(128)];
    let mut list: Vec<Trial> = [
        (near, [383, 127, 3, 3], "000 055 055", false),
        (near, [638, 382, 3, 3], "550 550 000", false),
        (near, [384, 128, 256, 128], all.as_str(), false),
        (near, [768, 384, 256, 128], none.as_str(), true),
        (far, [256, 0, 256, 128], all.as_str(), false),
        (far, [512, 384, 256, 128], all.as_str(), false),
        (far, [768, 384, 256, 128], none.as_str(), true),
        (far, [767, 511, 2, 1], "50", false),
        (far, [255, 0, 2, 2], "05 05", false),
    ]
    .map(|(view, at, rows, rises)| tile("wide S", (&s(50), view), at, rows, rises))
    .into();
    let rows: [([u16; 4], [&str; 2], Words); 3] = [
        ([256, 255, 256, 1], [&low, &high], [0, 0, ALL, ALL]),
        ([512, 255, 256, 1], [&high, &low], [ALL, ALL, 0, 0]),
        (
            [320, 383, 129, 1],
            [&low[..64], &high[..65]],
            [0, ALL, 1, 0],
        ),
    ];
    list.extend(rows.map(|(at, parts, words)| {
        let mut trial = tile("a row of S", (&s(50), near), at, &parts.concat(), false);
        let done = trial.due.result.as_mut().expect("an accepted call");
        done.lit = words.to_vec();
        trial
    }));
    list
}

/// "A panel's count is the sum over its patches", tile by tile.
fn of_pieces() -> Vec<Trial> {
    let [left, right] = [[-50, 0], [0, 50]].map(|x| piece(5, 100, x, [-50, 50]));
    let halves = in_one_node(vec![left, right]);
    let drawn = |at: [u16; 4], rows: &str, cells: [u32; 2], rises| {
        let call = Call::of_tile(halves.write(), VIEW, Tile::of(at));
        drawn(&format!("halves, tile {at:?}"), call, rows, &cells, rises)
    };
    vec![
        drawn([0, 0, 2, 4], "00 05 05 00", [2, 0], false),
        drawn([2, 0, 2, 4], "00 50 50 00", [0, 2], true),
        drawn([0, 0, 4, 2], "0000 0550", [1, 1], false),
        drawn([1, 2, 3, 2], "550 000", [1, 1], true),
    ]
}
