//! Scan conversion in stored order with a depth for each cell. Depths are
//! compared in f64, and exactly where f64 cannot tell.

use super::camera::{Camera, Ramp};
use super::finish::finish;
use super::plane::{minus, Plane};
use super::shapes::{Shape, Shapes, NOTHING};
use super::tables::{wide, Tables};
use outside::call::{Call, Lent};
use std::ops::Range;

/// Twice the rounding of a nearness, and more.
const DOUBT: f64 = 1.0 / (1u64 << 49) as f64;

/// The nearness of a cell, 1 / distance, is direction · normal / over.
struct Depth {
    /// Direction · normal.
    ramp: Ramp,
    over: f64,
    /// 1 / over.
    inverse: f64,
    panel: u16,
}

/// Each cell's greatest nearness, 0 for none, and the shape that it is from.
struct Buffer<'a> {
    width: usize,
    /// A depth for each shape.
    depths: Vec<Depth>,
    near: Vec<f64>,
    from: &'a mut [u16],
}

pub fn paint(tables: &Tables, call: &Call, lent: &mut Lent) {
    let stored = 0..tables.patches.len() as u16;
    let shapes = Shapes::of(tables, call, stored);
    let all = shapes.shapes.iter();
    lent.picture.fill(NOTHING);
    let mut buffer = Buffer {
        width: usize::from(call.tile.width),
        depths: all.map(|s| depth(tables, &shapes.camera, s)).collect(),
        near: vec![0.0; call.tile.cells()],
        from: &mut lent.picture,
    };
    for (number, shape) in shapes.numbered() {
        buffer.convert(&shapes, number, shape);
    }
    finish(&shapes, lent);
}

fn depth(tables: &Tables, camera: &Camera, shape: &Shape) -> Depth {
    let corners = tables.corners_of(&tables.patches[usize::from(shape.patch)]);
    let eye = wide(camera.view.eye());
    let [a, b, c] = [0, 1, 2].map(|n| minus(wide(corners[n]), eye));
    let plane = Plane::through(a, b, c);
    let over = plane.level.abs() as f64;
    Depth {
        ramp: camera.ramp(plane.normal.map(|n| n as f64), plane.level < 0),
        over,
        inverse: 1.0 / over,
        panel: shape.panel,
    }
}

impl Buffer<'_> {
    fn convert(&mut self, shapes: &Shapes, number: u16, shape: &Shape) {
        for row in usize::from(shape.low)..usize::from(shape.high) {
            let (first, end) = shapes.span(shape, row);
            if first < end {
                self.convert_row(number, row, first..end);
            }
        }
    }

    fn convert_row(&mut self, number: u16, row: usize, span: Range<usize>) {
        let depth = &self.depths[usize::from(number - 1)];
        let start = depth.ramp.at_row(row);
        let slope = depth.ramp.slope;
        let best = &mut self.near[row * self.width..][span.clone()];
        let from = &mut self.from[row * self.width..][span.clone()];
        for (i, (best, from)) in span.zip(best.iter_mut().zip(from)) {
            let near = (start + slope * i as f64) * depth.inverse;
            if near <= *best * (1.0 - DOUBT) {
                continue;
            }
            // Level with a shape and never with nothing, as nearness is above 0.
            let level = near <= *best * (1.0 + DOUBT);
            if !level || wins(depth, &self.depths[usize::from(*from - 1)], i, row) {
                *best = near;
                *from = number;
            }
        }
    }
}

/// The exact comparison of two depths beside one cell's line: on it, then to the
/// right, then downward, so that only patches of one plane are level. Of two such
/// of one panel the earlier in the list keeps it, as patches come in stored order.
#[cold]
fn wins(new: &Depth, old: &Depth, column: usize, row: usize) -> bool {
    let beside = |n: &Ramp| [n.at(column, row), n.slope, n.step];
    let scaled = |n: &Depth, over: f64| beside(&n.ramp).map(|n| n as i128 * over as i128);
    let (a, b) = (scaled(new, old.over), scaled(old, new.over));
    a > b || (a == b && new.panel < old.panel)
}
