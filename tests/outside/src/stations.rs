//! The stations tried in the paper, starred and unstarred, on the model.

use crate::axes::LEVEL;
use crate::bill::bill;
use crate::call::{Call, View};
use crate::loose::{Loose, Site};
use crate::scene::{Patch, Scene, NONE};
use crate::station::Station::Units;
use crate::survey::{survey, used_pairs, Done};
use crate::vector::{side, Point};

/// "Eye and window as above unless said."
pub const VIEW: View = View {
    station: Units([0, 0, 0]),
    axes: LEVEL,
    width: 4,
    height: 4,
    lens: 4,
};

/// The same with another window.
pub fn window(width: u16, height: u16, lens: u16) -> View {
    View {
        width,
        height,
        lens,
        ..VIEW
    }
}

/// A rectangle at some distance forward, between two ends each way.
pub fn piece(panel: u16, forward: i16, x: [i16; 2], z: [i16; 2]) -> Patch {
    let corners = [[x[0], z[0]], [x[1], z[0]], [x[1], z[1]], [x[0], z[1]]];
    Patch {
        panel,
        corners: corners.map(|[x, z]| [x, forward, z]).to_vec(),
    }
}

pub fn square(panel: u16, half: i16, forward: i16) -> Patch {
    piece(panel, forward, [-half, half], [-half, half])
}

/// A node on the plane of its first patch.
pub fn site(patches: Vec<Patch>) -> Site {
    let corners = &patches[0].corners;
    Site {
        points: [corners[0], corners[1], corners[2]],
        positive: NONE,
        negative: NONE,
        patches,
    }
}

pub fn scene_of(sites: Vec<Site>) -> Scene {
    Loose { sites }.pack()
}

pub fn in_one_node(patches: Vec<Patch>) -> Scene {
    scene_of(vec![site(patches)])
}

/// The first node's patches, and the second's on their side of its plane.
pub fn hung(first: Vec<Patch>, second: Vec<Patch>) -> Scene {
    let mut sites = vec![site(first), site(second)];
    let corners = sites[1].patches.iter().flat_map(|p| &p.corners);
    let is_positive = corners.into_iter().any(|&p| side(&sites[0].points, p) > 0);
    match is_positive {
        true => sites[0].positive = 1,
        false => sites[0].negative = 1,
    }
    scene_of(sites)
}

/// S: "one node and patch, panel 5"; the half-width 50 unless said.
pub fn s(half: i16) -> Scene {
    in_one_node(vec![square(5, half, 100)])
}

/// T: "S behind panel 7 at forward 50, half-width 20"; less one panel, or less
/// panel 0, which is none.
pub fn t(less: u16) -> Scene {
    let mut sites = vec![
        site(vec![square(5, 50, 100)]),
        site(vec![square(7, 20, 50)]),
    ];
    // The normal of S points toward the eye.
    sites[0].positive = 1;
    for site in &mut sites {
        site.patches.retain(|patch| patch.panel != less);
    }
    scene_of(sites)
}

fn seen(scene: &Scene, view: View) -> Result<Done, u32> {
    survey(&Call::new(scene.write(), view))
}

fn done(scene: &Scene, view: View) -> Done {
    seen(scene, view).expect("an accepted scene")
}

pub fn with_eye(eye: Point) -> View {
    let station = Units(eye);
    View { station, ..VIEW }
}

/// Each station with what the model says of it.
pub fn stations() -> Vec<(&'static str, bool)> {
    let mut list = starred();
    list.extend(half_width_25());
    list.extend(unstarred());
    list
}

fn starred() -> Vec<(&'static str, bool)> {
    let (of_s, of_t) = (done(&s(50), VIEW), done(&t(0), VIEW));
    let rows = [[0; 4], [0, 5, 5, 0], [0, 5, 5, 0], [0; 4]].concat();
    let blank = vec![0; 16];
    let both = in_one_node(vec![square(3, 50, 100), square(5, 50, 100)]);
    let narrow = View {
        width: 1,
        height: 1,
        ..VIEW
    };
    vec![
        ("S is 88 bytes", s(50).write().len() == 88),
        ("* S: rows", of_s.picture == rows),
        (
            "* S: row 1 unlit",
            *used_pairs(&of_s.unlit, 1) == [0, 1, 3, 1],
        ),
        ("* S: row 0 unlit", *used_pairs(&of_s.unlit, 0) == [0, 4]),
        ("S: no row 4", used_pairs(&of_s.unlit, 4).is_empty()),
        ("* half-width 26", done(&s(26), VIEW).counts[5] == 4),
        (
            "* eye on the plane",
            done(&s(50), with_eye([0, 100, 0])).picture == blank,
        ),
        (
            "* eye beyond",
            done(&s(50), with_eye([0, 200, 0])).picture == blank,
        ),
        (
            "* T: panel 7 has 4",
            of_t.counts[7] == 4 && of_t.counts[5] == 0,
        ),
        ("* T less 5", done(&t(5), VIEW).picture == of_t.picture),
        ("* T less 7", done(&t(7), VIEW).picture == of_s.picture),
        ("* 3 and 5: 3 shows", {
            let counts = done(&both, VIEW).counts;
            counts[3] == 4 && counts[5] == 0
        }),
        ("* no nodes", done(&Scene::default(), VIEW).picture == blank),
        ("* S, 1 by 1", done(&s(50), narrow).picture == [5]),
    ]
}

/// "In S with half-width 25 the cells now covered are to be worked out anew and
/// stored."
fn half_width_25() -> Vec<(&'static str, bool)> {
    let Done {
        picture,
        counts,
        unlit,
        ..
    } = done(&s(25), VIEW);
    let rows = [[0; 4], [0, 5, 0, 0], [0; 4], [0; 4]].concat();
    vec![
        ("* half-width 25: rows", picture == rows),
        (
            "* half-width 25: row 1 unlit",
            *used_pairs(&unlit, 1) == [0, 1, 2, 2],
        ),
        ("* half-width 25: counts", counts[5] == 1 && counts[0] == 15),
    ]
}

/// An octagon, with corners taken away or added to the number wanted.
fn cornered(wanted: usize) -> Scene {
    let (a, b) = (20, 50);
    let ring: [(i16, i16); 9] = [
        (-a, -b),
        (a, -b),
        (b, -a),
        (b, a),
        (a, b),
        (-a, b),
        (-b, a),
        (-b, -a),
        (-b + 1, -a - 10),
    ];
    let mut patch = square(5, 50, 100);
    patch.corners = ring.iter().map(|&(x, z)| [x, 100, z]).collect();
    let mut sites = vec![site(vec![patch])];
    sites[0].patches[0].corners.truncate(wanted);
    scene_of(sites)
}

/// A second patch below the root, leaning on its plane or lying in it.
fn leaning(top: Point) -> Scene {
    let mut lower = square(6, 50, 100);
    lower.corners = vec![[-50, 100, -50], [50, 100, -50], top];
    let mut sites = vec![site(vec![square(5, 50, 100)]), site(vec![lower])];
    sites[0].positive = 1;
    scene_of(sites)
}

fn unstarred() -> Vec<(&'static str, bool)> {
    let at = |forward: i16| in_one_node(vec![square(5, 50, forward)]);
    let wide = |width: u16| View { width, ..VIEW };
    let mut own = s(50);
    own.nodes[0].negative = 0;
    let mut midway = square(5, 50, 100);
    midway.corners.insert(1, [0, 100, -50]);
    let midway = in_one_node(vec![square(4, 50, 100), midway]);
    let text = "view 4 4 4\n5 4\nnothing 12\ntotal 16\n";
    vec![
        ("coordinate 10,000", seen(&at(10_000), VIEW).is_ok()),
        ("coordinate 10,001", seen(&at(10_001), VIEW) == Err(3)),
        ("width 256", seen(&s(50), wide(256)).is_ok()),
        ("width 257", seen(&s(50), wide(257)) == Err(10)),
        ("corners 8", seen(&cornered(8), VIEW).is_ok()),
        ("corners 2", seen(&cornered(2), VIEW) == Err(6)),
        ("corners 9", seen(&cornered(9), VIEW) == Err(6)),
        ("own number as child", seen(&own, VIEW) == Err(5)),
        ("corner midway", seen(&midway, VIEW) == Err(8)),
        (
            "edge on the plane",
            seen(&leaning([0, 60, 0]), VIEW).is_ok(),
        ),
        (
            "wholly on the plane",
            seen(&leaning([0, 100, 0]), VIEW) == Err(9),
        ),
        (
            "the bill of S",
            bill(&Call::new(s(50).write(), VIEW).standard_input()) == text,
        ),
        ("a bill of 11 bytes", bill(&[0; 11]) == "refused 1\n"),
        (
            "a bill of 57,389 bytes",
            bill(&vec![0; 57_389]) == "refused 1\n",
        ),
    ]
}
