//! Question 9 by bounding boxes of subtrees: a box wholly beyond a plane answers
//! for all the patches in it.

use super::plane::Plane;
use super::tables::{is_node, wide, Node, Patch, Tables};

/// Bounds of the corners at and below a node; empty where low is above high.
#[derive(Clone, Copy)]
struct Bounds {
    low: [i16; 3],
    high: [i16; 3],
}

const EMPTY: Bounds = Bounds {
    low: [i16::MAX; 3],
    high: [i16::MIN; 3],
};

impl Bounds {
    fn of(corners: &[[i16; 3]]) -> Bounds {
        let mut all = EMPTY;
        for &p in corners {
            all.join(&Bounds { low: p, high: p });
        }
        all
    }

    fn join(&mut self, other: &Bounds) {
        for k in 0..3 {
            self.low[k] = self.low[k].min(other.low[k]);
            self.high[k] = self.high[k].max(other.high[k]);
        }
    }

    fn is_empty(&self) -> bool {
        self.low[0] > self.high[0]
    }

    /// The least number of sign × side in the box.
    fn least(&self, plane: &Plane, sign: i64) -> i64 {
        let corner = [0, 1, 2].map(|k| {
            let rises = sign * plane.normal[k] >= 0;
            i64::from(if rises { self.low[k] } else { self.high[k] })
        });
        sign * plane.side(corner)
    }
}

pub fn planes_divide(tables: &Tables) -> bool {
    let division = Division {
        tables,
        bounds: subtree_bounds(tables),
    };
    tables.nodes.iter().all(|node| division.at(node))
}

/// Children come after their parents.
fn subtree_bounds(tables: &Tables) -> Vec<Bounds> {
    let mut bounds = vec![EMPTY; tables.nodes.len()];
    for (k, node) in tables.nodes.iter().enumerate().rev() {
        let mut all = Bounds::of(run_corners(tables, node));
        for child in node.children.into_iter().filter(|&c| is_node(c)) {
            all.join(&bounds[usize::from(child)]);
        }
        bounds[k] = all;
    }
    bounds
}

/// The corners of a node's patches stand together.
fn run_corners<'a>(tables: &'a Tables, node: &Node) -> &'a [[i16; 3]] {
    match tables.patches_of(node) {
        [] => &[],
        [first, .., last] => {
            &tables.corners[usize::from(first.first)..usize::from(last.first + last.count)]
        }
        [only] => tables.corners_of(only),
    }
}

struct Division<'a> {
    tables: &'a Tables,
    bounds: Vec<Bounds>,
}

impl Division<'_> {
    fn at(&self, node: &Node) -> bool {
        let plane = &node.plane;
        let mut own = run_corners(self.tables, node).iter();
        own.all(|&p| plane.side(wide(p)) == 0)
            && self.below(node.children[0], plane, 1)
            && self.below(node.children[1], plane, -1)
    }

    fn below(&self, child: u16, plane: &Plane, sign: i64) -> bool {
        if !is_node(child) {
            return true;
        }
        let bounds = &self.bounds[usize::from(child)];
        if bounds.is_empty() || bounds.least(plane, sign) > 0 {
            return true;
        }
        let node = &self.tables.nodes[usize::from(child)];
        let mut own = self.tables.patches_of(node).iter();
        own.all(|patch| self.beyond(patch, plane, sign))
            && self.below(node.children[0], plane, sign)
            && self.below(node.children[1], plane, sign)
    }

    fn beyond(&self, patch: &Patch, plane: &Plane, sign: i64) -> bool {
        let corners = self.tables.corners_of(patch).iter();
        let (mut least, mut most) = (i64::MAX, i64::MIN);
        for side in corners.map(|&p| sign * plane.side(wide(p))) {
            least = least.min(side);
            most = most.max(side);
        }
        least >= 0 && most > 0
    }
}
