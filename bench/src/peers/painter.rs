//! Back to front over the tree: each span over what was there.

use super::finish::finish;
use super::order::front_to_back;
use super::shapes::{Shapes, NOTHING};
use super::tables::{wide, Tables};
use outside::call::{Call, Lent};

pub fn paint(tables: &Tables, call: &Call, lent: &mut Lent) {
    let order = front_to_back(tables, wide(call.view.eye()));
    let shapes = Shapes::of(tables, call, order.into_iter().rev());
    let width = usize::from(call.tile.width);
    lent.picture.fill(NOTHING);
    for (number, shape) in shapes.numbered() {
        for row in usize::from(shape.low)..usize::from(shape.high) {
            let (first, end) = shapes.span(shape, row);
            if first < end {
                lent.picture[row * width..][first..end].fill(number);
            }
        }
    }
    finish(&shapes, lent);
}
