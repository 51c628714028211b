//! F-3's own words tried with steps of whole numbers, on scenes of small ones:
//! "A step is a fraction of two whole numbers, so such a direction can be
//! multiplied out to whole numbers." Meeting and distance are told here by
//! points and fractions of one line alone.

use crate::axes::Axes;
use crate::call::Call;
use crate::gate::patch_normal;
use crate::ray::{apart, edges, eye_to_corner, Sight};
use crate::scene::{Patch, Scene};
use crate::survey::{lines, survey_by};
use crate::vector::{cross, dot, minus, plus, times, wide, Vector};

/// Meeting told from the point where the line pierces the plane: ahead of the
/// eye, and inside every edge.
pub fn pierces(patch: &Patch, eye: Vector, along: Vector) -> bool {
    let n = patch_normal(patch);
    let (over, under) = (eye_to_corner(patch, eye), dot(along, n));
    if over * under <= 0 {
        return false;
    }
    // The point is eye + along · over / under; all below is times |under|.
    let (over, under) = (over.abs(), under.abs());
    let count = patch.corners.len();
    (0..count).all(|k| {
        let v = wide(patch.corners[k]);
        let w = wide(patch.corners[(k + 1) % count]);
        let from_v = [0, 1, 2].map(|a| under * (eye[a] - v[a]) + over * along[a]);
        dot(n, cross(minus(w, v), from_v)) > 0
    })
}

/// "Distance along the line is a fraction of two whole numbers, (first corner −
/// eye) · n over direction · n"; both without their sign.
fn distance(patch: &Patch, eye: Vector, along: Vector) -> [i128; 2] {
    let under = dot(along, patch_normal(patch));
    [eye_to_corner(patch, eye), under].map(i128::abs)
}

/// Does patch k give the cell up to patch m, if both are met? Told by three
/// sentences: closer, or level and of a lower panel, or level, of one panel
/// and "the earlier in the list".
fn gives_up(patches: &[Patch], [k, m]: [usize; 2], eye: Vector, along: Vector) -> bool {
    let [own, other] = [k, m].map(|n| distance(&patches[n], eye, along));
    let [panel, other_panel] = [k, m].map(|n| patches[n].panel);
    let closer = other[0] * own[1] < own[0] * other[1];
    let level = other[0] * own[1] == own[0] * other[1];
    closer || (level && (other_panel < panel || (other_panel == panel && m < k)))
}

/// Each patch by itself: its cells are those where the cell's one line pierces
/// it and it gives none up. A lit cell is had by one patch, an unlit one by none.
pub fn each_alone(call: &Call, sight: Sight, along: &[Vector]) -> bool {
    let (patches, eye) = (Scene::read(&call.scene).patches(), wide(call.view.eye()));
    let done = survey_by(sight, call).expect("an accepted scene");
    let mut table = vec![0; patches.len()];
    let once = along.iter().zip(&done.picture).all(|(&along, &panel)| {
        let there = (0..patches.len()).filter(|&k| pierces(&patches[k], eye, along));
        let there: Vec<usize> = there.collect();
        let keeps = |k: &usize| {
            let mut others = there.iter().filter(|&m| m != k);
            !others.any(|&m| gives_up(&patches, [*k, m], eye, along))
        };
        let having: Vec<usize> = there.iter().copied().filter(keeps).collect();
        having.iter().for_each(|&k| table[k] += 1);
        having.len() == usize::from(panel > 0)
    });
    once && table == done.patch_counts
}

/// Steps a / b for right and c / e for up.
type Steps = ([i128; 2], [i128; 2]);

/// Steps that are small enough where no product with right or up is above
/// `most`: a product of 1 with the direction outweighs what they add, and one
/// with right what up adds. The first are hardly small enough.
fn small_enough(most: i128) -> [Steps; 3] {
    let b = most + 1;
    [
        ([1, b], [1, b * most + 1]),
        ([3, 3 * b + 2], [2, (2 * b + 2) * most + 1]),
        ([1, 2 * b], [1, 7 * b * b]),
    ]
}

/// "right times any small enough step above 0 added, and up times any step above
/// 0 small enough beside that taken away".
fn multiplied_out(along: Vector, axes: &Axes, ([a, b], [c, e]): Steps) -> Vector {
    plus(times(b * e, along), axes.sum([a * e, 0, -c * b]))
}

/// The greatest part of any of these, without its sign.
fn greatest(vectors: impl Iterator<Item = Vector>) -> i128 {
    vectors.flatten().map(i128::abs).max().unwrap_or(0)
}

/// The greatest product of right or up with what decides a meeting or a
/// comparison of distances.
fn greatest_product(patches: &[Patch], eye: Vector, axes: &Axes) -> i128 {
    let pairs = patches
        .iter()
        .flat_map(|p| patches.iter().map(move |q| [p, q]));
    let deciding = patches.iter().flat_map(|p| edges(p, eye));
    let deciding = deciding.chain(pairs.map(|pair| apart(pair, eye)));
    let [right, _, up] = axes.vectors().map(wide);
    greatest(deciding.map(|v| [dot(right, v), dot(up, v), 0]))
}

/// Along each of some lines beside a cell's own the cell is had by the patch
/// that has it in the model. None where the numbers of such lines are too large
/// to be worked with, or the scene has no patch.
pub fn steps_agree(call: &Call) -> Option<bool> {
    let (patches, view) = (Scene::read(&call.scene).patches(), &call.view);
    let eye = wide(view.eye());
    let lines = lines(Sight::Plain, view, &call.tile);
    let own: Vec<Vector> = lines.map(|line| line.along[0]).collect();
    let most = greatest_product(&patches, eye, &view.axes);
    // No number in `pierces` is above 72 · direction · normal² · far².
    let corners = patches.iter().flat_map(|p| p.corners.iter());
    let far = greatest(corners.map(|&p| minus(wide(p), eye))) as f64;
    let normal = greatest(patches.iter().map(patch_normal)) as f64;
    let direction = 30.0 * (most as f64).powi(3) * greatest(own.iter().copied()) as f64;
    let fits = 72.0 * direction * (normal * far).powi(2) < 1e38;
    (fits && !patches.is_empty()).then(|| {
        small_enough(most).into_iter().all(|steps| {
            let beside = own.iter();
            let beside = beside.map(|&along| multiplied_out(along, &view.axes, steps));
            each_alone(call, Sight::Beside, &beside.collect::<Vec<Vector>>())
        })
    })
}
