//! Stations of lines that run along joints and through corners: the pictures
//! due before F-3, the sight lines read by themselves, and since.

use crate::axes::Axes;
use crate::call::View;
use crate::ray::Sight;
use crate::scene::{Patch, Scene};
use crate::stations::{hung, in_one_node, piece, s, square, t, window, with_eye, VIEW};
use crate::trial::{shows, Trial};
use crate::turned::{quarters, ROLLED, UPSIDE_DOWN};
use crate::vector::Point;

/// A station with its rows before F-3 and since.
struct Joint {
    name: &'static str,
    scene: Scene,
    view: View,
    old: &'static str,
    now: &'static str,
}

/// Before a plane at forward 100 the middle lines pass through x 0 and z 0, the
/// outer ones through 50 and −50.
fn middle() -> View {
    window(3, 3, 4)
}

fn joint(name: &'static str, scene: Scene, [old, now]: [&'static str; 2]) -> Joint {
    Joint {
        name,
        scene,
        view: middle(),
        old,
        now,
    }
}

/// The stations with the rows due when sight lines are read in this way.
pub fn joints(sight: Sight) -> Vec<Trial> {
    let mut all = of_starred();
    all.extend(of_one_plane());
    all.extend(of_two_planes());
    all.extend(of_depths());
    all.extend(of_corners());
    all.extend(of_rows());
    all.extend(of_turned());
    let rows = |joint: &Joint| match sight {
        Sight::Plain => joint.old,
        Sight::Beside => joint.now,
    };
    let trial = |joint: Joint| shows(joint.name, &joint.scene, joint.view, rows(&joint));
    all.into_iter().map(trial).collect()
}

const BLANK: &str = "0000 0000 0000 0000";
const AMID: &str = "0000 0550 0550 0000";

/// "In S with half-width 25 the cells now covered are to be worked out anew";
/// every other starred station keeps its picture.
fn of_starred() -> Vec<Joint> {
    let both = in_one_node(vec![square(3, 50, 100), square(5, 50, 100)]);
    let seven = "0000 0770 0770 0000";
    let kept = [
        ("S", s(50), VIEW, AMID),
        ("half-width 26", s(26), VIEW, AMID),
        ("S, eye on the plane", s(50), with_eye([0, 100, 0]), BLANK),
        ("S, eye beyond", s(50), with_eye([0, 200, 0]), BLANK),
        ("T", t(0), VIEW, seven),
        ("T less 5", t(5), VIEW, seven),
        ("T less 7", t(7), VIEW, AMID),
        ("3 and 5 on one square", both, VIEW, "0000 0330 0330 0000"),
        ("no nodes", Scene::default(), VIEW, BLANK),
        ("S, 1 by 1", s(50), window(1, 1, 4), "5"),
    ];
    let kept = kept.map(|(name, scene, view, rows)| Joint {
        view,
        ..joint(name, scene, [rows; 2])
    });
    let narrow = Joint {
        view: VIEW,
        ..joint("half-width 25", s(25), [BLANK, "0000 0500 0000 0000"])
    };
    kept.into_iter().chain([narrow]).collect()
}

/// At forward 100.
fn upright(panel: u16, x: [i16; 2], z: [i16; 2]) -> Patch {
    piece(panel, 100, x, z)
}

const LEFT: [i16; 2] = [-60, 0];
const RIGHT: [i16; 2] = [0, 60];
const BELOW: [i16; 2] = [-60, 0];
const ABOVE: [i16; 2] = [0, 60];
const WHOLE: [i16; 2] = [-60, 60];

fn of_one_plane() -> Vec<Joint> {
    let beside = |left, right| {
        let mut all = [upright(left, LEFT, WHOLE), upright(right, RIGHT, WHOLE)];
        all.sort_by_key(|patch| patch.panel);
        in_one_node(all.to_vec())
    };
    let stacked = in_one_node(vec![upright(1, WHOLE, ABOVE), upright(2, WHOLE, BELOW)]);
    let half = in_one_node(vec![
        upright(1, LEFT, ABOVE),
        upright(2, RIGHT, ABOVE),
        upright(3, WHOLE, BELOW),
    ]);
    vec![
        joint(
            "1 left, 2 right",
            beside(1, 2),
            ["102 102 102", "122 122 122"],
        ),
        joint(
            "2 left, 1 right",
            beside(2, 1),
            ["201 201 201", "211 211 211"],
        ),
        joint("1 above, 2 below", stacked, ["111 000 222", "111 222 222"]),
        joint("four meet", quarters(), ["102 000 304", "122 344 344"]),
        joint("two above a half", half, ["102 000 333", "122 333 333"]),
    ]
}

/// An upright wall between two places of the floor plan, z from −60 to 60.
fn wall(panel: u16, [p, q]: [[i16; 2]; 2]) -> Patch {
    let corners = [(p, -60), (q, -60), (q, 60), (p, 60)];
    let corners = corners.map(|([x, y], z)| [x, y, z]).to_vec();
    Patch { panel, corners }
}

/// The same laid on its side, x from −60 to 60, between places of y and z.
fn roof(panel: u16, ends: [[i16; 2]; 2]) -> Patch {
    let mut patch = wall(panel, ends);
    patch.corners.iter_mut().for_each(|p| p.rotate_right(1));
    patch
}

/// Two walls, or two roofs, whose planes meet on the middle lines. Where both go
/// the same way panel 9 is the nearer one: a tie by panel would show 1.
fn of_two_planes() -> Vec<Joint> {
    type Bend = fn(u16, [[i16; 2]; 2]) -> Patch;
    let meet = |bend: Bend, from: [i16; 2], [one, two]: [(u16, [i16; 2]); 2]| {
        let [one, two] = [one, two].map(|(panel, to)| vec![bend(panel, [from, to])]);
        hung(one, two)
    };
    let corner = meet(wall, [0, 100], [(1, [-100, 50]), (2, [100, 50])]);
    let aside = meet(wall, [0, 100], [(1, [100, 150]), (9, [100, 80])]);
    let downward = meet(roof, [100, 0], [(1, [150, -100]), (9, [80, -100])]);
    vec![
        joint("walls of a corner", corner, ["102 102 102", "122 122 122"]),
        joint(
            "walls open to the right",
            aside,
            ["009 009 009", "099 099 099"],
        ),
        joint(
            "roofs open downward",
            downward,
            ["000 000 999", "000 999 999"],
        ),
    ]
}

/// Patches that begin on the middle lines, ahead of another.
fn of_depths() -> Vec<Joint> {
    let ahead = |x| {
        let behind = vec![upright(5, WHOLE, WHOLE)];
        hung(behind, vec![piece(7, 50, x, [-30, 30])])
    };
    let mut edge_on = wall(3, [[0, 50], [0, 90]]);
    edge_on.corners.iter_mut().for_each(|p| p[2] /= 6);
    let edge_on = hung(vec![upright(5, RIGHT, WHOLE)], vec![edge_on]);
    let [left, right, now] = ["755 755 755", "557 557 557", "577 577 577"];
    vec![
        joint("7 ahead on the left", ahead([-30, 0]), [left; 2]),
        joint("7 ahead on the right", ahead([0, 30]), [right, now]),
        joint(
            "3 edge on before 5",
            edge_on,
            ["005 005 005", "055 055 055"],
        ),
    ]
}

fn triangle(corners: [Point; 3]) -> Scene {
    let corners = corners.to_vec();
    in_one_node(vec![Patch { panel: 6, corners }])
}

const NOTHING: &str = "000 000 000";
const ONE: &str = "000 060 000";

/// A corner, or an edge from it, on the middle line.
fn of_corners() -> Vec<Joint> {
    let at = |others: [[i16; 2]; 2]| {
        let [p, q] = others.map(|[x, z]| [x, 100, z]);
        triangle([[0, 100, 0], p, q])
    };
    let along = triangle([[0, 50, 0], [0, 90, 0], [40, 90, 0]]);
    vec![
        // Steps of one size would light it.
        joint(
            "a wedge down to the right",
            at([[20, -40], [40, -20]]),
            [NOTHING; 2],
        ),
        joint(
            "a corner under a level edge",
            at([[0, -40], [40, 0]]),
            [NOTHING, ONE],
        ),
        joint(
            "a corner open to the right",
            at([[40, -40], [40, 40]]),
            [NOTHING, ONE],
        ),
        joint(
            "a corner over a level edge",
            at([[40, 0], [40, 40]]),
            [NOTHING; 2],
        ),
        joint("the eye on an edge's line", along, [NOTHING; 2]),
    ]
}

/// Strips whose edges lie in the plane of a row, and a floor whose joint runs
/// away from the eye.
fn of_rows() -> Vec<Joint> {
    let strip = |z| in_one_node(vec![upright(6, [-30, 30], z)]);
    let lane = |panel, [left, right]: [i16; 2]| {
        let corners = [[left, 40], [right, 40], [right, 160], [left, 160]];
        let corners = corners.map(|[x, y]| [x, y, -20]).to_vec();
        Patch { panel, corners }
    };
    let floor = in_one_node(vec![lane(3, [-40, 0]), lane(4, [0, 40])]);
    let rows = [
        "00000 00000 00000 03040 33044",
        "00000 00000 00000 33440 33444",
    ];
    vec![
        joint(
            "a strip below the middle row",
            strip([-10, 0]),
            [NOTHING, ONE],
        ),
        joint("a strip above the middle row", strip([0, 10]), [NOTHING; 2]),
        Joint {
            view: window(5, 5, 10),
            ..joint("a floor in two strips", floor, rows)
        },
    ]
}

/// Right and up are the view's own, whatever they are.
fn of_turned() -> Vec<Joint> {
    let askew = |right, up| Axes::of([right, [0, 2, 0], up]);
    let half = askew([1, 0, 1], [-1, 0, 1]);
    let leaning = askew([1, 0, -1], [0, 0, 1]);
    [
        ("four meet, rolled", ROLLED, ["204 000 103", "244 133 133"]),
        (
            "four meet, upside down",
            UPSIDE_DOWN,
            ["403 000 201", "433 211 211"],
        ),
        (
            "four meet, half rolled",
            half,
            ["010 302 040", "112 322 442"],
        ),
        (
            "four meet, right leaning",
            leaning,
            ["100 104 004", "124 144 344"],
        ),
    ]
    .map(|(name, axes, rows)| Joint {
        view: View { axes, ..middle() },
        ..joint(name, quarters(), rows)
    })
    .into()
}
