//! Damage to the stored fields, aimed at questions 3 to 6.

use crate::damage::added;
use crate::random::Random;
use crate::scene::{Scene, NONE};
use crate::vector::Point;

pub type SceneHarm = fn(&mut Scene, &mut Random);

pub const STORED: &[(u32, SceneHarm)] = &[
    (3, coordinate_out),
    (4, points_in_line),
    (5, child_wrong),
    (5, child_of_another),
    (5, child_lost),
    (6, patch_run_wrong),
    (6, corner_run_wrong),
    (6, empty_run_elsewhere),
    (6, runs_out_of_order),
    (6, something_unused),
];

fn coordinate_out(scene: &mut Scene, rng: &mut Random) {
    let ends = [
        -10_001, 10_001, -10_001, 10_001, -32_768, 32_767, -10_000, 10_000,
    ];
    let value = rng.pick(&ends);
    let nodes = scene
        .nodes
        .iter_mut()
        .flat_map(|node| node.points.iter_mut());
    let mut points: Vec<&mut Point> = nodes.collect();
    if points.is_empty() || rng.once_in(2) {
        points = scene.corners.iter_mut().collect();
    }
    if !points.is_empty() {
        let at = rng.below(points.len());
        points[at][rng.below(3)] = value;
    }
}

fn points_in_line(scene: &mut Scene, rng: &mut Random) {
    if scene.nodes.is_empty() {
        return;
    }
    let at = rng.below(scene.nodes.len());
    let points = &mut scene.nodes[at].points;
    match rng.below(4) {
        0 => points[2] = points[rng.below(2)],
        1 => points[1] = points[0],
        2 => *points = [points[0]; 3],
        _ => points[2] = added(points[1], points[1], points[0]).unwrap_or(points[0]),
    }
    rng.shuffle(points);
}

fn child_wrong(scene: &mut Scene, rng: &mut Random) {
    let count = scene.nodes.len();
    if count == 0 {
        return;
    }
    let own = rng.below(count);
    let any = rng.below(count) as u16;
    let near = [own, 0, count, count - 1, own.saturating_sub(1), own + 1];
    let mut values = near.map(|n| n as u16).to_vec();
    values.extend([NONE, NONE - 1, any]);
    let value = rng.pick(&values);
    match rng.once_in(2) {
        true => scene.nodes[own].positive = value,
        false => scene.nodes[own].negative = value,
    }
}

/// A node named twice, by two nodes or by one.
fn child_of_another(scene: &mut Scene, rng: &mut Random) {
    let count = scene.nodes.len();
    if count < 2 {
        return;
    }
    let child = 1 + rng.below(count - 1);
    let above = rng.below(child);
    let node = &mut scene.nodes[above];
    match (rng.once_in(2), node.positive == NONE) {
        (true, _) | (_, true) => node.positive = child as u16,
        _ => node.negative = child as u16,
    }
}

/// A node that no other names any more.
fn child_lost(scene: &mut Scene, rng: &mut Random) {
    let children = scene
        .nodes
        .iter_mut()
        .flat_map(|node| [&mut node.positive, &mut node.negative]);
    let mut named: Vec<&mut u16> = children.filter(|child| **child != NONE).collect();
    if !named.is_empty() {
        let at = rng.below(named.len());
        *named[at] = NONE;
    }
}

fn shifted(rng: &mut Random, number: u16) -> u16 {
    let any = rng.below(1_100) as u16;
    let step = rng.pick(&[1, 1, 2, u16::MAX, u16::MAX, 32_768]);
    rng.pick(&[number.wrapping_add(step), number.wrapping_add(step), any])
}

fn patch_run_wrong(scene: &mut Scene, rng: &mut Random) {
    if scene.nodes.is_empty() {
        return;
    }
    let at = rng.below(scene.nodes.len());
    let node = &mut scene.nodes[at];
    match rng.below(3) {
        0 => node.first = shifted(rng, node.first),
        _ => node.count = shifted(rng, node.count),
    }
}

fn corner_run_wrong(scene: &mut Scene, rng: &mut Random) {
    if scene.records.is_empty() {
        return;
    }
    let at = rng.below(scene.records.len());
    let record = &mut scene.records[at];
    match rng.below(3) {
        0 => record.first = shifted(rng, record.first),
        _ => record.count = shifted(rng, record.count),
    }
}

fn empty_run_elsewhere(scene: &mut Scene, rng: &mut Random) {
    let mut empty: Vec<_> = scene.nodes.iter_mut().filter(|n| n.count == 0).collect();
    if !empty.is_empty() {
        let at = rng.below(empty.len());
        let other = shifted(rng, empty[at].first);
        empty[at].first = rng.pick(&[0, NONE, other]);
    }
}

/// All patches are used once, but two neighbouring runs change places.
fn runs_out_of_order(scene: &mut Scene, rng: &mut Random) {
    if scene.nodes.len() > 1 {
        let at = rng.below(scene.nodes.len() - 1);
        let (one, two) = (scene.nodes[at].clone(), scene.nodes[at + 1].clone());
        scene.nodes[at + 1].first = one.first;
        scene.nodes[at].first = one.first.wrapping_add(two.count);
    }
}

/// A patch in no run, or a corner in no patch.
fn something_unused(scene: &mut Scene, rng: &mut Random) {
    match scene.records.last().cloned() {
        Some(mut record) if rng.once_in(2) => {
            let from = usize::from(record.first);
            let corners = scene.corners.get(from..).unwrap_or(&[]).to_vec();
            record.first = scene.corners.len() as u16;
            scene.records.push(record);
            scene.corners.extend(corners);
        }
        _ => scene.corners.push([1, 2, 3]),
    }
}
