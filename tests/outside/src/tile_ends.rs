//! Stations of tiles, windows and lengths at their ends and beyond, and of the counter.

use crate::axes::LEVEL;
use crate::call::{Call, ROW, WORDS};
use crate::station::Station;
use crate::stations::{s, window, VIEW};
use crate::tile::Tile;
use crate::tile_harm::{INSIDE, OUTSIDE};
use crate::tile_stations::drawn;
use crate::tiles::MOST;
use crate::trial::{refused, Trial};

pub fn tile_ends() -> Vec<Trial> {
    let mut all = of_ends();
    all.extend(of_lengths());
    all.extend(of_order());
    all.extend(of_counters());
    all
}

/// A call on S with a tile of a window.
fn placed([width, height]: [u16; 2], at: [u16; 4]) -> Call {
    Call::of_tile(s(50).write(), window(width, height, 4_096), Tile::of(at))
}

/// Question 10, at its ends and just beyond; by so long a lens all is lit.
fn of_ends() -> Vec<Trial> {
    let mut all = Vec::new();
    for (k, at) in INSIDE.into_iter().enumerate() {
        let lit = "5".repeat(Tile::of(at).cells());
        let cells = [lit.len() as u32];
        let name = format!("1,024 by 512, tile {at:?}");
        all.push(drawn(&name, placed(MOST, at), &lit, &cells, k < 3));
    }
    for at in OUTSIDE {
        let name = format!("1,024 by 512, tile {at:?}");
        all.push(refused(&name, placed(MOST, at), 10));
    }
    for (size, at) in [
        (MOST, [769, 384, 256, 128]),
        (MOST, [768, 385, 256, 128]),
        ([1_025, 512], [0, 0, 1, 1]),
        ([1_024, 513], [0, 0, 1, 1]),
        ([1_025, 1], [1_024, 0, 1, 1]),
        ([1, 513], [0, 512, 1, 1]),
        ([0, 1], [0, 0, 1, 1]),
        ([1, 0], [0, 0, 1, 1]),
        ([257, 1], [0, 0, 257, 1]),
        ([1, 129], [0, 0, 1, 129]),
        ([1, 1], [0, 0, 2, 1]),
        ([1, 1], [0, 0, 1, 2]),
        ([4, 2], [2, 3, 2, 1]),
        ([2, 4], [3, 2, 1, 2]),
    ] {
        let name = format!("{size:?}, tile {at:?}");
        all.push(refused(&name, placed(size, at), 10));
    }
    all
}

/// A call on a small tile in a window, with some of its lengths another.
fn lent(change: impl Fn(&mut Call)) -> Call {
    let mut call = placed([20, 9], [3, 2, 5, 4]);
    change(&mut call);
    call
}

/// "buffer lengths follow the tile": none of them is the window's.
fn of_lengths() -> Vec<Trial> {
    let lit = "5".repeat(20);
    let mut all = vec![drawn("5 by 4 of 20 by 9", lent(|_| ()), &lit, &[20], false)];
    for length in [0, 19, 21, 36, 45, 80, 100, 180] {
        let name = format!("a picture of {length}");
        all.push(refused(&name, lent(|c| c.picture_len = length), 11));
    }
    for rows in [0, 3, 5, 9, 20] {
        let call = lent(|c| c.unlit_len = rows * ROW);
        all.push(refused(&format!("lists of {rows} rows"), call, 11));
        let call = lent(|c| c.lit_len = rows * WORDS);
        all.push(refused(&format!("a map of {rows} rows"), call, 11));
    }
    let window = lent(|c| {
        let own = c.tile;
        *c = Call::new(c.scene.to_vec(), c.view);
        c.tile = own;
    });
    all.push(refused("all lengths the window's", window, 11));
    all
}

/// The place of question 10, where the tile is what it says no to.
fn of_order() -> Vec<Trial> {
    type Change = fn(&mut Call);
    let changes: [(&str, u32, Change); 7] = [
        ("a byte too few", 1, |c| c.scene = c.scene[1..].into()),
        ("an own number as child", 5, |c| {
            c.scene[50..52].copy_from_slice(&[0, 0])
        }),
        ("a NaN", 15, |c| {
            c.view.station = Station::metres([0.0, f64::NAN, 0.0])
        }),
        ("lens 0", 10, |c| c.view.lens = 0),
        ("up is forward", 10, |c| c.view.axes.up = LEVEL.forward),
        ("a long picture", 10, |c| c.picture_len += 1),
        ("a counter at its end", 10, |c| c.counter = u32::MAX),
    ];
    let mut all = Vec::new();
    for at in [
        [0, 0, 0, 1],
        [20, 0, 1, 1],
        [16, 2, 5, 4],
        [65_535, 0, 5, 4],
    ] {
        for (name, number, change) in changes {
            let mut call = placed([20, 9], at);
            change(&mut call);
            all.push(refused(&format!("tile {at:?} and {name}"), call, number));
        }
    }
    all
}

/// Question 12 is asked of every tile, whether or not the counter would rise.
fn of_counters() -> Vec<Trial> {
    let from = |at: [u16; 4], counter: u32| {
        let mut call = Call::of_tile(s(50).write(), VIEW, Tile::of(at));
        call.counter = counter;
        call
    };
    let (first, last) = ([0, 0, 2, 2], [2, 2, 2, 2]);
    let mut all: Vec<Trial> = [first, last, [1, 1, 2, 2]]
        .map(|at| {
            refused(
                &format!("{at:?} at the counter's end"),
                from(at, u32::MAX),
                12,
            )
        })
        .into();
    for (at, rows, rise) in [(first, "00 05", 0), (last, "50 00", 1)] {
        for counter in [1, 7, u32::MAX - 1] {
            let name = format!("{at:?} from {counter}");
            let mut trial = drawn(&name, from(at, counter), rows, &[1], false);
            trial.due.counter = counter + rise;
            all.push(trial);
        }
    }
    all
}
