//! The rows of a tile that a patch can reach, from its corners' projections, and
//! whether it can reach the columns: never too few.

use super::camera::{Camera, Floats};
use super::plane::dot;

/// A point's parts ahead of the camera and above its middle.
type Seen = [f64; 2];

/// The least and the greatest of above / ahead over the points of a convex
/// polygon that are ahead; None where it has none. Corners are given from the eye.
fn slopes(corners: &[Floats], camera: &Camera) -> Option<(f64, f64)> {
    let seen = |&corner: &Floats| [dot(corner, camera.ahead), dot(corner, camera.above)];
    let (mut least, mut most) = (f64::INFINITY, f64::NEG_INFINITY);
    let mut before = seen(&corners[corners.len() - 1]);
    for corner in corners.iter().map(seen) {
        let [ahead, above] = corner;
        if ahead > 0.0 {
            let slope = above / ahead;
            least = if slope < least { slope } else { least };
            most = if slope > most { slope } else { most };
        }
        if (ahead > 0.0) != (before[0] > 0.0) {
            match crossing(before, corner) {
                1.. => most = f64::INFINITY,
                0 => {}
                _ => least = f64::NEG_INFINITY,
            }
        }
        before = corner;
    }
    (least <= most).then_some((least, most))
}

/// The sign of above where an edge comes to ahead = 0. At above = 0 the slope is
/// the same along the whole edge. The parts stay below 2^31, so that their products
/// need all of i64.
fn crossing(p: Seen, q: Seen) -> i64 {
    let [p, q] = [p, q].map(|seen| seen.map(|n| n as i64));
    let (front, back) = if p[0] > 0 { (p, q) } else { (q, p) };
    back[1] * front[0] - front[1] * back[0]
}

/// The rows from the first number up to below the second.
pub fn rows(corners: &[Floats], camera: &Camera) -> Option<(i64, i64)> {
    let (least, most) = slopes(corners, camera)?;
    let [height, lens] = [camera.tile.height, camera.view.lens].map(f64::from);
    let top = camera.top;
    let within = |row: f64| row.clamp(0.0, height) as i64;
    // Row j looks along above / ahead = (top - 2j) / lens; 1/64 covers the rounding.
    let low = within((top - lens * most) / 2.0 - 1.0 / 64.0);
    let high = within((top - lens * least) / 2.0 + 1.0 + 1.0 / 64.0);
    (low < high).then_some((low, high))
}

/// Has a patch all its corners beyond the first column or beyond the last one? The
/// lines beside a cell's are a little to the right of it: a patch that ends in the
/// first column's plane is beyond, and one that begins in the last's is not.
pub fn is_aside(corners: &[Floats], camera: &Camera) -> bool {
    let side = |column| corners.iter().map(move |&corner| dot(corner, column));
    side(camera.first_column).all(|n| n <= 0.0) || side(camera.last_column).all(|n| n < 0.0)
}
