//! The patches front to back: near side, own patches, far side.

use super::plane::Vector;
use super::tables::{is_node, Tables};

pub fn front_to_back(tables: &Tables, eye: Vector) -> Vec<u16> {
    let mut order = Vec::with_capacity(tables.patches.len());
    if !tables.nodes.is_empty() {
        below(tables, 0, eye, &mut order);
    }
    order
}

fn below(tables: &Tables, k: u16, eye: Vector, order: &mut Vec<u16>) {
    let node = &tables.nodes[usize::from(k)];
    let [positive, negative] = node.children;
    let (near, far) = match node.plane.side(eye) < 0 {
        true => (negative, positive),
        false => (positive, negative),
    };
    if is_node(near) {
        below(tables, near, eye, order);
    }
    order.extend(node.first..node.first + node.count);
    if is_node(far) {
        below(tables, far, eye, order);
    }
}
