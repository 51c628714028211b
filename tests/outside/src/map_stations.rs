//! Stations of the lit map: surveys with every word due told, and lengths of the
//! map. Those of rows are in `map_rows`.

use crate::call::{Call, View, WORDS};
use crate::mount::with_part;
use crate::scene::{Patch, Scene};
use crate::station::Station::{self, Units};
use crate::stations::{in_one_node, piece, s, window, with_eye, VIEW};
use crate::trial::{accepted, refused, Trial};

pub type Words = [u64; WORDS];

pub const ALL: u64 = u64::MAX;

/// S, 100 columns by a lens of 100: lit from 25 to 74.
pub const HUNDRED: Words = [0xffff_ffff_fe00_0000, 0x7ff, 0, 0];

pub fn maps() -> Vec<Trial> {
    let mut all = of_four_rows();
    all.extend(of_s());
    all.extend(of_two_boards());
    all.extend(of_lengths());
    all.extend(of_order());
    all
}

/// The scene with its picture and its patches' cells, and its words told besides.
fn mapped(name: &str, seen: (&Scene, View), rows: &str, cells: &[u32], words: &[Words]) -> Trial {
    let (scene, view) = seen;
    let mut trial = accepted(name, Call::new(scene.write(), view), rows, cells);
    let done = trial.due.result.as_mut().expect("an accepted call");
    done.lit = words.concat();
    trial
}

/// Runs of none and of panel 5 by turns.
fn runs(lengths: &[usize]) -> String {
    let turns = ["0", "5"].into_iter().cycle().zip(lengths);
    turns.map(|(cell, often)| cell.repeat(*often)).collect()
}

/// Of the two, only the second tells the top from the bottom.
fn of_four_rows() -> Vec<Trial> {
    let [none, two] = [[0; WORDS], [6, 0, 0, 0]];
    let [level, low] = ["0000 0550 0550 0000", "0000 0000 0550 0550"];
    let above = with_eye([0, 0, 38]);
    let in_the_middle = [none, two, two, none];
    let at_the_bottom = [none, none, two, two];
    vec![
        mapped("S", (&s(50), VIEW), level, &[4], &in_the_middle),
        mapped("S, from above", (&s(50), above), low, &[4], &at_the_bottom),
    ]
}

/// S in one row, from its middle and from the planes of its sides.
fn of_s() -> Vec<Trial> {
    let seen = |x: i16, width, lens| View {
        station: Units([x, 0, 0]),
        ..window(width, 1, lens)
    };
    let [wide, right, left] = [0, 50, -50].map(|x| seen(x, 256, 256));
    let filled = |width| seen(0, width, 4_096);
    [
        ("S, 256 wide", wide, [64, 128, 64], [0, ALL, ALL, 0]),
        ("S, from the right", right, [0, 128, 128], [ALL, ALL, 0, 0]),
        ("S, from the left", left, [128, 128, 0], [0, 0, ALL, ALL]),
        ("S, 100 wide", seen(0, 100, 100), [25, 50, 25], HUNDRED),
        ("S, all of 65", filled(65), [0, 65, 0], [ALL, 1, 0, 0]),
        ("S, all of 256", filled(256), [0, 256, 0], [ALL; WORDS]),
        ("S, all of 64", filled(64), [0, 64, 0], [ALL, 0, 0, 0]),
        ("S, all of 1", filled(1), [0, 1, 0], [1, 0, 0, 0]),
    ]
    .map(|(name, view, lengths, words)| {
        let cells = lengths[1] as u32;
        mapped(name, (&s(50), view), &runs(&lengths), &[cells], &[words])
    })
    .into()
}

/// From one column to another of a row 256 wide by a lens of 256: a column is two
/// units wide.
fn board(first: i16, last: i16) -> Patch {
    let side = |column: i16| 2 * column - 256;
    piece(5, 256, [side(first), side(last + 1)], [-50, 50])
}

/// A name, the columns of two boards, the row's runs, what each board has, and the
/// words.
type Boards = (&'static str, [[i16; 2]; 2], [usize; 4], [u32; 2], Words);

/// Spans that meet at the end of a word, leave a column there, or overlap.
const BOARDS: &[Boards] = &[
    (
        "a word by two spans",
        [[0, 31], [32, 63]],
        [0, 64, 192, 0],
        [32, 32],
        [ALL, 0, 0, 0],
    ),
    (
        "two words, each by a span",
        [[0, 63], [64, 127]],
        [0, 128, 128, 0],
        [64, 64],
        [ALL, ALL, 0, 0],
    ),
    (
        "column 63 alone unlit",
        [[0, 62], [64, 255]],
        [0, 63, 1, 192],
        [63, 192],
        [ALL >> 1, ALL, ALL, ALL],
    ),
    (
        "column 64 alone unlit",
        [[0, 63], [65, 255]],
        [0, 64, 1, 191],
        [64, 191],
        [ALL, ALL - 1, ALL, ALL],
    ),
    (
        "one over the other",
        [[60, 70], [65, 80]],
        [60, 21, 175, 0],
        [11, 10],
        [0xf << 60, 0x1_ffff, 0, 0],
    ),
    (
        "columns 0 and 255",
        [[0, 0], [255, 255]],
        [0, 1, 254, 1],
        [1, 1],
        [1, 0, 0, 1 << 63],
    ),
];

fn of_two_boards() -> Vec<Trial> {
    let told = |&(name, boards, lengths, cells, words): &Boards| {
        let boards = boards.map(|[first, last]| board(first, last));
        let seen = (&in_one_node(boards.to_vec()), window(256, 1, 256));
        mapped(name, seen, &runs(&lengths), &cells, &[words])
    };
    BOARDS.iter().map(told).collect()
}

/// A call on S with a map of some length.
fn lent(view: View, length: usize) -> Call {
    Call {
        lit_len: length,
        ..Call::new(s(50).write(), view)
    }
}

/// "Question 11 covers the map's length": four words a row, no other length.
fn of_lengths() -> Vec<Trial> {
    let wrong = [
        0, 1, 2, 3, 4, 8, 12, 15, 16, 17, 20, 32, 64, 128, 256, 512, 1_024, 65_540, 65_552,
    ];
    let mut all = Vec::new();
    for (view, right) in [
        (VIEW, 16),
        (window(256, 1, 256), 4),
        (window(1, 128, 4), 512),
    ] {
        for length in wrong.into_iter().filter(|&n| n != right) {
            let name = format!("{} rows, a map of {length}", view.height);
            all.push(refused(&name, lent(view, length), 11));
        }
        let mut exchanged = lent(view, 0);
        std::mem::swap(&mut exchanged.unlit_len, &mut exchanged.lit_len);
        exchanged.unlit_len = right;
        let name = format!("{} rows, map and lists exchanged", view.height);
        all.push(refused(&name, exchanged, 11));
    }
    all
}

/// The place of question 11, where the map is what it says no to.
fn of_order() -> Vec<Trial> {
    type Change = fn(&mut Call);
    let changes: [(&str, u32, Change); 9] = [
        ("a NaN", 15, |c| {
            c.view.station = Station::metres([0.0, f64::NAN, 0.0])
        }),
        ("a part 101", 14, |c| c.view.axes = with_part(1, 101)),
        ("lens 0", 10, |c| c.view.lens = 0),
        ("a counter at its end", 11, |c| c.counter = u32::MAX),
        ("a byte too few", 1, |c| c.scene = c.scene[1..].into()),
        ("a short picture", 11, |c| c.picture_len -= 1),
        ("a long patch table", 11, |c| c.patch_counts_len += 1),
        ("long lists", 11, |c| c.unlit_len += 1),
        ("an own number as child", 5, |c| {
            c.scene[50..52].copy_from_slice(&[0, 0])
        }),
    ];
    let mut all = Vec::new();
    for (name, number, change) in changes {
        for length in [0, 15, 17] {
            let mut call = lent(VIEW, length);
            change(&mut call);
            let name = format!("a map of {length} and {name}");
            all.push(refused(&name, call, number));
        }
    }
    let mut right = lent(VIEW, 16);
    right.counter = u32::MAX;
    all.push(refused("a right map and a counter at its end", right, 12));
    all
}
