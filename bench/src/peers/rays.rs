//! Ray by ray: each cell asks the patches of its row, front to back, and takes
//! the first that it meets. What a row's cells share is worked out once a row.

use super::finish::finish;
use super::order::front_to_back;
use super::shapes::{Edge, Shapes, NOTHING};
use super::tables::{wide, Tables};
use outside::call::{Call, Lent};

/// An edge in one row: a cell's number is slope × column + start.
#[derive(Clone, Copy)]
struct RowEdge {
    slope: f64,
    start: f64,
}

impl RowEdge {
    fn of(edge: &Edge, row: usize) -> RowEdge {
        RowEdge {
            slope: edge.ramp.slope,
            start: edge.ramp.at_row(row),
        }
    }

    /// Are the lines beside the cell's inside? On the edge itself the way to the
    /// right decides; edges along the row have said before which rows they keep.
    #[inline]
    fn takes(&self, column: f64) -> bool {
        let number = self.slope * column + self.start;
        number > 0.0 || (number == 0.0 && self.slope > 0.0)
    }
}

/// The numbers of the shapes that reach a row, with the ends of their edges.
#[derive(Default)]
struct Row {
    edges: Vec<RowEdge>,
    shapes: Vec<(u16, u32)>,
}

pub fn paint(tables: &Tables, call: &Call, lent: &mut Lent) {
    let order = front_to_back(tables, wide(call.view.eye()));
    let shapes = Shapes::of(tables, call, order.into_iter());
    let mut row = Row::default();
    let rows = lent.picture.chunks_exact_mut(usize::from(call.tile.width));
    for (j, cells) in rows.enumerate() {
        row.gather(&shapes, j);
        for (i, cell) in cells.iter_mut().enumerate() {
            *cell = row.first_met(i as f64);
        }
    }
    finish(&shapes, lent);
}

impl Row {
    fn gather(&mut self, shapes: &Shapes, j: usize) {
        self.edges.clear();
        self.shapes.clear();
        for (number, shape) in shapes.numbered() {
            if j < usize::from(shape.low) || j >= usize::from(shape.high) {
                continue;
            }
            let edges = shapes.edges(shape).iter();
            self.edges.extend(edges.map(|edge| RowEdge::of(edge, j)));
            self.shapes.push((number, self.edges.len() as u32));
        }
    }

    #[inline]
    fn first_met(&self, column: f64) -> u16 {
        let mut first = 0;
        for &(number, end) in &self.shapes {
            let edges = &self.edges[first..end as usize];
            if edges.iter().all(|edge| edge.takes(column)) {
                return number;
            }
            first = end as usize;
        }
        NOTHING
    }
}
