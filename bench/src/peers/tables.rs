//! A scene's records, decoded once.

use super::plane::{Plane, Vector};
use outside::scene::{pair_at, u16_at, HEADER, NONE, SIZES};
use std::ops::Range;

pub struct Node {
    pub plane: Plane,
    /// The positive and the negative child.
    pub children: [u16; 2],
    pub first: u16,
    pub count: u16,
}

pub struct Patch {
    pub panel: u16,
    pub first: u16,
    pub count: u16,
}

pub struct Tables {
    pub nodes: Vec<Node>,
    pub patches: Vec<Patch>,
    pub corners: Vec<[i16; 3]>,
    /// Is every coordinate within ±10,000?
    pub in_range: bool,
}

pub fn wide(p: [i16; 3]) -> Vector {
    p.map(i64::from)
}

pub fn point_fits(p: &[i16; 3]) -> bool {
    within(p, 10_000)
}

pub fn within(p: &[i16; 3], most: u16) -> bool {
    p.iter()
        .fold(true, |all, n| all & (n.unsigned_abs() <= most))
}

impl Tables {
    /// Decodes bytes that questions 1 and 2 let pass.
    pub fn read(bytes: &[u8]) -> Tables {
        let (nodes, rest) = bytes[HEADER..].split_at(pair_at(bytes, 0).1 as usize);
        let (patches, corners) = rest.split_at(pair_at(bytes, 1).1 as usize);
        let mut in_range = true;
        let nodes = nodes.chunks_exact(SIZES[0]).map(|b| {
            let points = [0, 6, 12].map(|at| point(&b[at..at + 6]));
            in_range &= points.iter().all(point_fits);
            node(b, points)
        });
        let nodes = nodes.collect();
        let corners: Vec<[i16; 3]> = corners.chunks_exact(SIZES[2]).map(point).collect();
        in_range &= corners.iter().fold(true, |all, p| all & point_fits(p));
        Tables {
            nodes,
            patches: patches.chunks_exact(SIZES[1]).map(patch).collect(),
            corners,
            in_range,
        }
    }

    pub fn corners_of(&self, patch: &Patch) -> &[[i16; 3]] {
        let first = usize::from(patch.first);
        &self.corners[first..first + usize::from(patch.count)]
    }

    pub fn patches_of(&self, node: &Node) -> &[Patch] {
        &self.patches[node.run()]
    }
}

impl Node {
    pub fn run(&self) -> Range<usize> {
        let first = usize::from(self.first);
        first..first + usize::from(self.count)
    }
}

pub fn is_node(child: u16) -> bool {
    child != NONE
}

fn point(b: &[u8]) -> [i16; 3] {
    [0, 2, 4].map(|at| u16_at(b, at) as i16)
}

fn node(b: &[u8], points: [[i16; 3]; 3]) -> Node {
    let [p, q, r] = points.map(wide);
    Node {
        plane: Plane::through(p, q, r),
        children: [u16_at(b, 18), u16_at(b, 20)],
        first: u16_at(b, 22),
        count: u16_at(b, 24),
    }
}

fn patch(b: &[u8]) -> Patch {
    Patch {
        panel: u16_at(b, 0),
        first: u16_at(b, 2),
        count: u16_at(b, 4),
    }
}
