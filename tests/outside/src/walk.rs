//! The walk through the tree, front to back.

use crate::scene::{Scene, NONE};
use crate::vector::{side, Point};

/// The numbers of the patches as they are walked: "The side holding the eye is
/// walked first, then the node's own patches as listed, then the other side.
/// With the eye on the plane the positive side is walked first."
pub fn walk(scene: &Scene, eye: Point) -> Vec<usize> {
    let mut order = Vec::new();
    let mut waiting = Vec::new();
    if !scene.nodes.is_empty() {
        waiting.push((0, false));
    }
    while let Some((k, own)) = waiting.pop() {
        let node = &scene.nodes[k];
        if own {
            order.extend(scene.run_of(k));
            continue;
        }
        let (near, far) = match side(&node.points, eye) >= 0 {
            true => (node.positive, node.negative),
            false => (node.negative, node.positive),
        };
        let child = |c: u16| (c != NONE).then_some((usize::from(c), false));
        waiting.extend(child(far));
        waiting.push((k, true));
        waiting.extend(child(near));
    }
    order
}
