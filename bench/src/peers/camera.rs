//! The directions of a tile's cells, and numbers that change evenly over them.
//!
//! Parts of right, forward and up are within ±100, so those of a direction are up
//! to 100 × (1,023 + 4,096 + 511), below 2^20. Normals of patches and of edges seen
//! from the eye have parts below 2^30, so their products with a direction are whole
//! numbers below 2^52: f64 holds them, and every sum on the way to them.

use super::plane::{cross, minus};
use super::tables::wide;
use outside::call::{Call, View};
use outside::tile::Tile;

/// A vector of whole numbers, ready for many products.
pub type Floats = [f64; 3];

/// Cell (i, j) of the tile is seen along origin + i × across + j × down.
pub struct Camera {
    pub view: View,
    pub tile: Tile,
    eye: Floats,
    /// Across, origin and down, part by part; then all with the other sign.
    parts: [[Floats; 3]; 2],
    /// How many times up the first row looks above the middle.
    pub top: f64,
    /// Up × right, and right × forward. A point is so many times right, forward
    /// and up from the eye: its products with these are the last two numbers
    /// times right · (forward × up), which is above 0.
    pub ahead: Floats,
    pub above: Floats,
    /// Normals of the planes through the eye and the tile's first column, and its
    /// last, to the side of the other columns. Parts stay below 2^27.
    pub first_column: Floats,
    pub last_column: Floats,
}

impl Camera {
    pub fn of(call: &Call) -> Camera {
        let view = &call.view;
        let [right, forward, up] = view.axes.vectors().map(wide);
        let [first, last, top] = bounds(call);
        let lens = i64::from(view.lens);
        let along = |x: i64| [0, 1, 2].map(|k| x * right[k] + lens * forward[k] + top * up[k]);
        let origin = along(first);
        let part = |k: usize| [2 * right[k], origin[k], -2 * up[k]];
        Camera {
            view: *view,
            tile: call.tile,
            eye: view.eye().map(f64::from),
            parts: [1, -1].map(|sign| [0, 1, 2].map(|k| part(k).map(|n| (sign * n) as f64))),
            top: top as f64,
            ahead: cross(up, right).map(|n| n as f64),
            above: cross(right, forward).map(|n| n as f64),
            first_column: cross(origin, up).map(|n| n as f64),
            last_column: cross(up, along(last)).map(|n| n as f64),
        }
    }

    /// The vector from the eye to a point.
    #[inline]
    pub fn from_eye(&self, p: [i16; 3]) -> Floats {
        minus(p.map(f64::from), self.eye)
    }

    /// The products of the cells' directions with a vector, or with its opposite.
    #[inline]
    pub fn ramp(&self, n: Floats, opposite: bool) -> Ramp {
        let [x, y, z] = &self.parts[usize::from(opposite)];
        let [slope, start, step] = [0, 1, 2].map(|k| n[0] * x[k] + n[1] * y[k] + n[2] * z[k]);
        Ramp { slope, start, step }
    }
}

/// How many times right the tile's first column looks aside, and its last one; how
/// many times up its first row looks above.
fn bounds(call: &Call) -> [i64; 3] {
    let [width, height] = [call.view.width, call.view.height].map(i64::from);
    let [left, top, wide, _] = call.tile.numbers().map(i64::from);
    let aside = |column: i64| 2 * column + 1 - width;
    [aside(left), aside(left + wide - 1), height - 1 - 2 * top]
}

/// A cell's number is slope × column + start + step × row.
#[derive(Clone, Copy, Default)]
pub struct Ramp {
    pub slope: f64,
    pub start: f64,
    pub step: f64,
}

impl Ramp {
    /// The number of a row's first cell.
    #[inline]
    pub fn at_row(&self, row: usize) -> f64 {
        self.start + row as f64 * self.step
    }

    #[inline]
    pub fn at(&self, column: usize, row: usize) -> f64 {
        self.at_row(row) + self.slope * column as f64
    }
}
