//! Stations of the square of S in several cuttings: the pictures and the
//! patches' cells due, and two that do not cover the same points.

use crate::call::{Call, View};
use crate::cover::{covers, same_cover};
use crate::loose::Site;
use crate::scene::{Patch, Scene};
use crate::stations::{in_one_node, piece, scene_of, site, square, window};
use crate::survey::survey;
use crate::trial::{accepted, digits, Trial};

/// In the plane at forward 100 the lines just beside the cells' own pass
/// through x hardly right of −50, 0 and 50 and z hardly below 50, 0 and −50, x
/// being farther off than z. The right and lower cells miss the square.
const MIDDLE: [u16; 3] = [3, 3, 4];
/// Likewise hardly right of −75, −25, 25 and 75, and hardly below the same: the
/// four inner cells.
const EVEN: [u16; 3] = [4, 4, 4];

fn view([width, height, lens]: [u16; 3]) -> View {
    window(width, height, lens)
}

/// A cutting, and its patches' cells in each window.
struct Cutting {
    name: &'static str,
    scene: Scene,
    middle: &'static [u32],
    even: &'static [u32],
}

/// Cuttings that all show the same, and what they show in each window.
struct Ring {
    cuttings: Vec<Cutting>,
    middle: &'static str,
    even: &'static str,
}

pub fn rings() -> Vec<Trial> {
    let mut all = Vec::new();
    for ring in [one_panel(), two_panels()] {
        for cutting in ring.cuttings {
            let Cutting { name, scene, .. } = cutting;
            let windows = [
                (MIDDLE, ring.middle, cutting.middle),
                (EVEN, ring.even, cutting.even),
            ];
            all.extend(windows.map(|(window, rows, cells)| {
                let call = Call::new(scene.write(), view(window));
                accepted(&format!("{name}, {window:?}"), call, rows, cells)
            }));
        }
    }
    all.extend(others().map(|(name, scene, rows, cells)| {
        let call = Call::new(scene.write(), view(MIDDLE));
        accepted(name, call, rows, cells)
    }));
    all
}

/// At forward 100, z from −50 to 50.
fn strip(panel: u16, x: [i16; 2]) -> Patch {
    piece(panel, 100, x, [-50, 50])
}

fn turned_round(mut patch: Patch) -> Patch {
    patch.corners.reverse();
    patch
}

/// S's corners are numbered 0 to 3; 4 is the middle.
fn triangle(numbers: [usize; 3]) -> Patch {
    let mut corners = square(5, 50, 100).corners;
    corners.push([0, 100, 0]);
    Patch {
        panel: 5,
        corners: numbers.map(|k| corners[k]).to_vec(),
    }
}

/// A node without patches on the plane x = 0, and a node on each side of it.
fn parted(left: Vec<Patch>, right: Vec<Patch>) -> Scene {
    let root = Site {
        points: [[0, 0, 0], [0, 1, 0], [0, 0, 1]],
        positive: 2,
        negative: 1,
        patches: Vec::new(),
    };
    scene_of(vec![root, site(left), site(right)])
}

const LOWER: [i16; 2] = [-50, 0];
const UPPER: [i16; 2] = [0, 50];

fn cutting(name: &'static str, scene: Scene, [middle, even]: [&'static [u32]; 2]) -> Cutting {
    Cutting {
        name,
        scene,
        middle,
        even,
    }
}

/// S's square: whole, in quarters, along a diagonal, in overlapping strips of
/// which one stands twice and one is listed the other way round, along both
/// diagonals, and in halves below a node without patches.
fn one_panel() -> Ring {
    let one = |name, patches, cells| cutting(name, in_one_node(patches), cells);
    let quarters = [LOWER, UPPER].map(|z| [LOWER, UPPER].map(|x| piece(5, 100, x, z)));
    let slanted = [[0, 1, 2], [0, 2, 3]].map(triangle).to_vec();
    let strips = [[-50, 20], [-50, 20], [-20, 50]].map(|x| strip(5, x));
    let [left, again, right] = strips;
    let strips = vec![left, again, turned_round(right)];
    let around = [[0, 1, 4], [1, 2, 4], [2, 3, 4], [3, 0, 4]].map(triangle);
    let halves = parted(vec![strip(5, LOWER)], vec![strip(5, UPPER)]);
    Ring {
        cuttings: vec![
            one("one piece", vec![square(5, 50, 100)], [&[4], &[4]]),
            one("quarters", quarters.concat(), [&[1; 4], &[1; 4]]),
            one("two triangles", slanted, [&[1, 3], &[3, 1]]),
            one("strips", strips, [&[4, 0, 0], &[2, 0, 2]]),
            one(
                "four triangles",
                around.to_vec(),
                [&[0, 1, 2, 1], &[1, 2, 1, 0]],
            ),
            cutting("a half in each child", halves, [&[2, 2], &[2, 2]]),
        ],
        middle: "550 550 000",
        even: "0000 0550 0550 0000",
    }
}

/// Panel 3 hides panel 5 where both are, whichever piece of either is there.
fn two_panels() -> Ring {
    let whole = in_one_node(vec![strip(3, [-50, 10]), strip(5, [-10, 50])]);
    let left = vec![strip(3, [-50, 0]), strip(5, [-10, 0])];
    let right = vec![strip(3, [0, 10]), strip(5, [0, 50])];
    let cells: [&[u32]; 2] = [&[2, 0, 2, 0], &[2, 0, 0, 2]];
    Ring {
        cuttings: vec![
            cutting("two panels, whole", whole, [&[4, 0], &[2, 2]]),
            cutting("two panels, cut", parted(left, right), cells),
        ],
        middle: "330 330 000",
        even: "0000 0350 0350 0000",
    }
}

type Other = (&'static str, Scene, &'static str, &'static [u32]);

/// Not the points of S's square, and another picture: a gap of one unit, and a
/// half under another number.
fn others() -> [Other; 2] {
    let gap = in_one_node(vec![strip(5, [-50, 0]), strip(5, [1, 50])]);
    let four = in_one_node(vec![strip(4, [-50, 0]), strip(5, [0, 50])]);
    [
        ("a gap of one unit", gap, "500 500 000", &[2, 0]),
        ("the left half as panel 4", four, "450 450 000", &[2, 2]),
    ]
}

/// What the stations say of the points covered: of S's square, and of each two
/// cuttings of a ring.
pub fn covered() -> Vec<(&'static str, bool)> {
    let s = square(5, 50, 100);
    let ways = [s.clone(), turned_round(s)];
    let at = |numerators, denominator| {
        ways.iter()
            .map(|s| covers(s, numerators, denominator))
            .collect()
    };
    let (yes, no) = (vec![true; 2], vec![false; 2]);
    let is = |held: Vec<bool>, due: &Vec<bool>| held == *due;
    vec![
        ("S covers its corner", is(at([-50, 100, -50], 1), &yes)),
        (
            "S covers a point of an edge",
            is(at([1, 200, 100], 2), &yes),
        ),
        ("S covers its middle", is(at([0, 100, 0], 1), &yes)),
        ("S ends a unit to the right", is(at([51, 100, 0], 1), &no)),
        ("S ends half a unit behind", is(at([0, 201, 0], 2), &no)),
        (
            "S ends a part of a unit below",
            is(at([0, 3_000, -1_501], 30), &no),
        ),
        ("cuttings of one panel cover the same", same(&one_panel())),
        ("cuttings of two panels cover the same", same(&two_panels())),
        ("a gap of one unit is seen", is_seen(&others()[0])),
        ("a half under another number is seen", is_seen(&others()[1])),
    ]
}

/// Do every two of the cuttings cover the same points?
fn same(ring: &Ring) -> bool {
    let scenes = || ring.cuttings.iter().map(|cutting| cutting.scene.patches());
    scenes().all(|one| scenes().all(|other| same_cover(&one, &other)))
}

/// Other points are covered than by S's square, and the picture is another.
fn is_seen((_, scene, rows, _): &Other) -> bool {
    let (patches, s) = (scene.patches(), vec![square(5, 50, 100)]);
    let told = !same_cover(&s, &patches) && !same_cover(&patches, &s);
    let call = Call::new(scene.write(), view(MIDDLE));
    let shown = survey(&call).expect("an accepted scene").picture;
    told && shown == digits(rows) && *rows != one_panel().middle
}
