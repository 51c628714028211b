//! Patches ready for scan conversion: oriented edges, rows, and a row's span.

use super::camera::{Camera, Floats, Ramp};
use super::plane::{cross, dot};
use super::reach;
use super::tables::Tables;
use outside::call::Call;

/// The lines beside a cell's are inside an edge where the cell's number is above
/// 0, and where it is 0 if it rises to the right, or downward if it does neither
/// rise nor fall that way. So an edge on the left takes in the cells on it, one on
/// the right does not.
#[derive(Clone, Copy, Default)]
pub struct Edge {
    pub ramp: Ramp,
    /// 1 / |slope|.
    inverse: f64,
}

impl Edge {
    fn of(ramp: Ramp) -> Edge {
        Edge {
            ramp,
            inverse: 1.0 / ramp.slope.abs(),
        }
    }
}

pub struct Shape {
    pub panel: u16,
    /// The patch's number in the scene.
    pub patch: u16,
    /// Rows from low up to below high.
    pub low: u8,
    pub high: u8,
    lefts: u8,
    count: u8,
    first: u32,
}

/// The shapes that can be met, in the order asked for, with their edges: those
/// that bound a span on the left, then those on the right.
pub struct Shapes {
    pub shapes: Vec<Shape>,
    edges: Vec<Edge>,
    pub camera: Camera,
}

/// What a cell holds that shows no shape; the shapes' numbers follow.
pub const NOTHING: u16 = 0;

/// Below the least distance, 2^-39, of a quotient from a whole number that it
/// is not, and above the rounding of a quotient up to 256, 2^-43.
const TINY: f64 = 1.0 / (1u64 << 41) as f64;

impl Shapes {
    pub fn of(tables: &Tables, call: &Call, order: impl Iterator<Item = u16>) -> Shapes {
        let mut all = Shapes {
            shapes: Vec::with_capacity(tables.patches.len()),
            edges: Vec::with_capacity(tables.corners.len()),
            camera: Camera::of(call),
        };
        for k in order {
            all.add(tables, k);
        }
        all
    }

    fn add(&mut self, tables: &Tables, k: u16) {
        let patch = &tables.patches[usize::from(k)];
        let mut corners = [[0.0; 3]; 8];
        let corners = &mut corners[..usize::from(patch.count)];
        for (place, &corner) in corners.iter_mut().zip(tables.corners_of(patch)) {
            *place = self.camera.from_eye(corner);
        }
        if reach::is_aside(corners, &self.camera) {
            return;
        }
        let Some(rows) = reach::rows(corners, &self.camera) else {
            return;
        };
        // The side number of the eye, which is the origin here.
        let side = dot(corners[0], cross(corners[1], corners[2]));
        if side == 0.0 {
            return;
        }
        let first = self.edges.len();
        let Some((rows, lefts)) = self.add_edges(corners, side < 0.0, rows) else {
            self.edges.truncate(first);
            return;
        };
        self.shapes.push(Shape {
            panel: patch.panel,
            patch: k,
            low: rows.0 as u8,
            high: rows.1 as u8,
            lefts: lefts as u8,
            count: (self.edges.len() - first) as u8,
            first: first as u32,
        });
    }

    /// Adds the edges, or their opposites; gives the rows that those without a
    /// slope leave, and the number of left edges. None where nothing is left.
    fn add_edges(
        &mut self,
        corners: &[Floats],
        opposite: bool,
        mut rows: (i64, i64),
    ) -> Option<((i64, i64), usize)> {
        let mut edges = [Edge::default(); 8];
        let edges = &mut edges[..corners.len()];
        for (k, edge) in edges.iter_mut().enumerate() {
            let next = if k + 1 < corners.len() { k + 1 } else { 0 };
            let normal = cross(corners[k], corners[next]);
            *edge = Edge::of(self.camera.ramp(normal, opposite));
        }
        // All are worked out before the first is looked at, so that a wrong guess
        // of its side is soon found out.
        let first = self.edges.len();
        for edge in edges.iter() {
            if edge.ramp.slope > 0.0 {
                self.edges.push(*edge);
            }
        }
        let left = self.edges.len() - first;
        for edge in edges.iter() {
            if edge.ramp.slope < 0.0 {
                self.edges.push(*edge);
            } else if edge.ramp.slope == 0.0 {
                rows = level_rows(edge, rows);
            }
        }
        (rows.0 < rows.1).then_some((rows, left))
    }

    /// The shapes with their numbers.
    pub fn numbered(&self) -> impl Iterator<Item = (u16, &Shape)> {
        (NOTHING + 1..).zip(&self.shapes)
    }

    pub fn edges(&self, shape: &Shape) -> &[Edge] {
        &self.edges[shape.first as usize..][..usize::from(shape.count)]
    }

    /// The columns of a row that the shape covers: first, and end, which is not
    /// above first where there are none.
    #[inline]
    pub fn span(&self, shape: &Shape, row: usize) -> (usize, usize) {
        let width = f64::from(self.camera.tile.width);
        let (lefts, rights) = self.edges(shape).split_at(usize::from(shape.lefts));
        let (mut low, mut high) = (-1.0, width);
        for edge in lefts {
            let bound = -edge.ramp.at_row(row) * edge.inverse;
            low = if bound > low { bound } else { low };
        }
        for edge in rights {
            let bound = edge.ramp.at_row(row) * edge.inverse;
            high = if bound < high { bound } else { high };
        }
        low = if low < width { low } else { width };
        high = if high > -1.0 { high } else { -1.0 };
        // Columns from low on and below high. Each sum is from just below 0, which is
        // cut to 0, to 257.
        let up = |n: f64| unsafe { (n + 1.0 - TINY).to_int_unchecked::<i32>() } as usize;
        (up(low), up(high))
    }
}

/// The rows where start + step × row is above 0, or 0 and rising.
fn level_rows(edge: &Edge, (low, high): (i64, i64)) -> (i64, i64) {
    let (start, step) = (edge.ramp.start as i64, edge.ramp.step as i64);
    match step {
        1.. => (low.max(-(start.div_euclid(step))), high),
        0 if start > 0 => (low, high),
        0 => (0, 0),
        _ => (low, high.min((start - 1).div_euclid(-step) + 1)),
    }
}
