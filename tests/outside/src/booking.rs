//! Stations of cells booked patch by patch, with the pictures, tables and
//! answers due.

use crate::axes::{Axes, LEVEL};
use crate::call::{Call, View, COUNTS};
use crate::mount::with_part;
use crate::scene::Scene;
use crate::station::Station::Units;
use crate::stations::{hung, in_one_node, piece, s, square, t, window, VIEW};
use crate::trial::{accepted, refused, Trial};

/// The rows of S.
const S: &str = "0000 0550 0550 0000";

fn shows(name: &str, scene: &Scene, view: View, rows: &str, cells: &[u32]) -> Trial {
    accepted(name, Call::new(scene.write(), view), rows, cells)
}

pub fn booking() -> Vec<Trial> {
    let mut all = of_one_node();
    all.extend(of_two_panels());
    all.extend(of_two_nodes());
    all.extend(of_full_rows());
    all.extend(of_lengths());
    all.extend(of_order());
    all
}

/// "Where two patches of one panel overlap in a plane, the earlier in the list
/// has the cell."
fn of_one_node() -> Vec<Trial> {
    let whole = || square(5, 50, 100);
    let half = || piece(5, 100, [-50, 0], [-50, 50]);
    [
        ("S", vec![whole()], vec![4]),
        ("a square twice", vec![whole(), whole()], vec![4, 0]),
        ("a half, then the whole", vec![half(), whole()], vec![2, 2]),
        ("the whole, then a half", vec![whole(), half()], vec![4, 0]),
        (
            "a half twice, then the whole twice",
            vec![half(), half(), whole(), whole()],
            vec![2, 0, 2, 0],
        ),
        (
            "out of sight, then the whole",
            vec![square(5, 24, 100), whole()],
            vec![0, 4],
        ),
        (
            "its edges on sight lines, then the whole",
            vec![square(5, 25, 100), whole()],
            vec![1, 3],
        ),
        (
            "the whole under a higher panel too",
            vec![whole(), square(7, 50, 100)],
            vec![4, 0],
        ),
    ]
    .map(|(name, patches, cells)| shows(name, &in_one_node(patches), VIEW, S, &cells))
    .into()
}

/// Each panel in two pieces that overlap, and the panels overlap as well.
fn of_two_panels() -> Vec<Trial> {
    let scene = in_one_node(vec![
        piece(3, 100, [-50, 0], [-50, 50]),
        piece(3, 100, [-80, -20], [-50, 50]),
        piece(5, 100, [-80, 80], [-80, 80]),
        piece(5, 100, [-50, 50], [-50, 50]),
    ]);
    let upside_down = Axes {
        right: [-1, 0, 0],
        up: [0, 0, -1],
        ..LEVEL
    };
    let turned = View {
        axes: upside_down,
        ..window(8, 4, 4)
    };
    let both = in_one_node(vec![square(3, 50, 100), square(5, 50, 100)]);
    let (rows, over) = (
        "00555500 00335500 00335500 00555500",
        "00555500 00553300 00553300 00555500",
    );
    let three = "0000 0330 0330 0000";
    let cells = [2, 2, 12, 0];
    vec![
        shows("two panels", &scene, window(8, 4, 4), rows, &cells),
        shows("two panels, upside down", &scene, turned, over, &cells),
        shows("3 and 5 on one square", &both, VIEW, three, &[4, 0]),
    ]
}

/// A nearer patch has the cell, wherever it stands in the list.
fn of_two_nodes() -> Vec<Trial> {
    let near = hung(vec![square(5, 50, 100)], vec![square(5, 10, 50)]);
    let pieces = [[-50, 10], [10, 50]].map(|x| piece(5, 100, x, [-50, 50]));
    let hidden = hung(vec![piece(7, 50, [-20, 0], [-20, 20])], pieces.to_vec());
    let back = View {
        station: Units([0, 200, 0]),
        axes: Axes {
            right: [-1, 0, 0],
            forward: [0, -1, 0],
            ..LEVEL
        },
        ..window(8, 8, 8)
    };
    let middle = ["00000000"; 2].join(" ") + &" 00555500".repeat(4) + &" 00000000".repeat(2);
    let split = "00775500 ".repeat(4);
    vec![
        shows(
            "one panel, twice as near",
            &near,
            window(8, 8, 8),
            &middle,
            &[12, 4],
        ),
        shows("one panel, from beyond", &near, back, &middle, &[16, 0]),
        shows(
            "a piece hidden",
            &hidden,
            window(8, 4, 8),
            &split,
            &[8, 0, 8],
        ),
        shows("T", &t(0), VIEW, &S.replace('5', "7"), &[0, 4]),
        shows("T less 7", &t(7), VIEW, S, &[4]),
    ]
}

/// Rows lit from end to end: the span that lights the last cells counts too.
fn of_full_rows() -> Vec<Trial> {
    let [left, right] = [[-50, 0], [0, 50]].map(|x| piece(5, 100, x, [-50, 50]));
    let halves = in_one_node(vec![left, right.clone()]);
    let half_first = in_one_node(vec![right, square(5, 50, 100)]);
    let (line, all) = ("5".repeat(256), "5".repeat(256 * 128));
    let (wide, whole) = (window(256, 1, 4_096), window(256, 128, 4_096));
    vec![
        shows("1 by 1", &s(50), window(1, 1, 4), "5", &[1]),
        shows("256 cells by one span", &s(50), wide, &line, &[256]),
        shows("by two halves", &halves, wide, &line, &[128, 128]),
        shows(
            "by a half and the rest",
            &half_first,
            wide,
            &line,
            &[128, 128],
        ),
        shows("all of 256 by 128", &s(50), whole, &all, &[32_768]),
        shows("of two halves", &halves, whole, &all, &[16_384, 16_384]),
    ]
}

/// As many patches as a scene holds, only the last of them in sight.
fn full() -> Scene {
    let mut patches = vec![piece(5, 100, [60, 61], [60, 61]); 1_023];
    patches.push(square(5, 50, 100));
    in_one_node(patches)
}

/// A node and no patch.
fn bare() -> Scene {
    let mut scene = s(50);
    scene.nodes[0].count = 0;
    scene.records.clear();
    scene.corners.clear();
    scene
}

/// "Question 11 covers the new table's length": one entry a patch, no other
/// length.
fn of_lengths() -> Vec<Trial> {
    let nothing = "0".repeat(16);
    let mut last = vec![0; 1_024];
    last[1_023] = 4;
    let mut all = vec![
        shows("no nodes", &Scene::default(), VIEW, &nothing, &[]),
        shows("a node, no patch", &bare(), VIEW, &nothing, &[]),
        shows("1,024 patches", &full(), VIEW, S, &last),
    ];
    let wrong = [0, 1, 2, 3, 4, 6, 16, 1_023, 1_024, COUNTS, 65_537];
    for scene in [s(50), Scene::default(), bare(), full()] {
        let patches = scene.records.len();
        for length in wrong.into_iter().filter(|&n| n != patches) {
            let name = format!("{patches} patches, a table of {length}");
            all.push(refused(&name, tabled(&scene, length), 11));
        }
        let mut exchanged = tabled(&scene, COUNTS);
        exchanged.counts_len = patches;
        let name = format!("{patches} patches, table and counts exchanged");
        all.push(refused(&name, exchanged, 11));
    }
    all
}

/// A call with a patch table of some length.
fn tabled(scene: &Scene, length: usize) -> Call {
    Call {
        patch_counts_len: length,
        ..Call::new(scene.write(), VIEW)
    }
}

/// The place of question 11, where the patch table is what it says no to.
fn of_order() -> Vec<Trial> {
    type Change = fn(&mut Call);
    let changes: [(&str, u32, Change); 7] = [
        ("a part 101", 14, |c| c.view.axes = with_part(1, 101)),
        ("lens 0", 10, |c| c.view.lens = 0),
        ("a counter at its end", 11, |c| c.counter = u32::MAX),
        ("a byte too few", 1, |c| c.scene = c.scene[1..].into()),
        ("a short picture", 11, |c| c.picture_len -= 1),
        ("long counts", 11, |c| c.counts_len += 1),
        ("an own number as child", 5, |c| {
            c.scene[50..52].copy_from_slice(&[0, 0])
        }),
    ];
    let mut all = Vec::new();
    for (name, number, change) in changes {
        for length in [0, 2] {
            let mut call = tabled(&s(50), length);
            change(&mut call);
            let name = format!("a table of {length} and {name}");
            all.push(refused(&name, call, number));
        }
    }
    let mut right = tabled(&s(50), 1);
    right.counter = u32::MAX;
    all.push(refused("a right table and a counter at its end", right, 12));
    all
}
