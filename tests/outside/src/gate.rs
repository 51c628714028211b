//! The gate: "Each question is put to the whole scene before the next. The
//! first no gives its number".
//!
//! 13 is not among them: "a row never needs more than 128 stretches, so question
//! 13 is struck and its number is never used again."

use crate::axes::Axes;
use crate::call::Call;
use crate::fitting::lengths_fit;
use crate::scene::{pair_at, u16_at, u32_at, Patch, Scene, HEADER, NONE, SIZES};
use crate::tile::{TALLEST, WIDEST};
use crate::vector::{cross, dot, minus, normal, side, wide, Point, Vector};

/// A struck number: no question has it, and no call ever answers it.
pub const STRUCK: u32 = 13;

pub type Question = fn(&Call, &Scene) -> bool;

/// The questions in order; 0 is "done".
pub struct Gate {
    pub size: fn(&[u8]) -> bool,
    pub sections: fn(&[u8]) -> bool,
    pub questions: Vec<(u32, Question)>,
}

impl Gate {
    pub fn of_the_paper() -> Gate {
        Gate {
            size: size_and_version,
            sections: sections_follow,
            questions: vec![
                (3, coordinates_in_range),
                (4, points_off_one_line),
                (5, children_named_once),
                (6, runs_follow),
                (7, panels_in_order),
                (8, patches_convex),
                (9, patches_on_their_sides),
                (15, station_turns),
                (10, view_in_range),
                (14, axes_proper),
                (11, lengths_fit),
                (12, counter_can_rise),
            ],
        }
    }

    /// Every number but 0, in the order of asking.
    pub fn numbers(&self) -> Vec<u32> {
        let later = self.questions.iter().map(|question| question.0);
        [1, 2].into_iter().chain(later).collect()
    }

    pub fn judge(&self, call: &Call) -> u32 {
        if !(self.size)(&call.scene) {
            return 1;
        }
        if !(self.sections)(&call.scene) {
            return 2;
        }
        let scene = Scene::read(&call.scene);
        for (number, question) in &self.questions {
            if !question(call, &scene) {
                return *number;
            }
        }
        0
    }
}

/// 1: "Is the scene 32 to 57,376 bytes long, with version 1, the zero field 0
/// and the whole length equal to the byte count?"
pub fn size_and_version(bytes: &[u8]) -> bool {
    (HEADER..=57_376).contains(&bytes.len())
        && u16_at(bytes, 0) == 1
        && u16_at(bytes, 2) == 0
        && u32_at(bytes, 4) as usize == bytes.len()
}

/// 2: "Does the first pair begin at 32, each next where the one before ended,
/// the last end at the whole length, the lengths being multiples of 26, 6 and
/// 6, with at most 1,024 nodes, 1,024 patches and 4,096 corners?"
pub fn sections_follow(bytes: &[u8]) -> bool {
    sections_within(bytes, [1_024, 1_024, 4_096])
}

pub fn sections_within(bytes: &[u8], most: [u64; 3]) -> bool {
    let mut place = HEADER as u64;
    for k in 0..3 {
        let (offset, length) = pair_at(bytes, k);
        let (offset, length) = (u64::from(offset), u64::from(length));
        let size = SIZES[k] as u64;
        if offset != place || length % size != 0 || length / size > most[k] {
            return false;
        }
        place = offset + length;
    }
    place == u64::from(u32_at(bytes, 4))
}

/// 3: "Is every coordinate from −10,000 to 10,000?"
fn coordinates_in_range(_: &Call, scene: &Scene) -> bool {
    let points = scene.nodes.iter().flat_map(|node| node.points.iter());
    points.chain(&scene.corners).all(in_range)
}

pub fn in_range(p: &Point) -> bool {
    p.iter().all(|n| (-10_000..=10_000).contains(n))
}

/// 4: "Are each node's three points off one line (cross product not zero)?"
fn points_off_one_line(_: &Call, scene: &Scene) -> bool {
    let off_line = |p: &[Point; 3]| normal(p[0], p[1], p[2]) != [0, 0, 0];
    scene.nodes.iter().all(|node| off_line(&node.points))
}

/// 5: "Is each child 65,535, or above its parent's own number and below the
/// node count, and is each node but 0 named exactly once?"
fn children_named_once(_: &Call, scene: &Scene) -> bool {
    let named = times_named(scene);
    children_above(scene) && named.iter().skip(1).all(|&times| times == 1)
}

pub fn children_above(scene: &Scene) -> bool {
    let count = scene.nodes.len();
    scene.nodes.iter().enumerate().all(|(k, node)| {
        let fits = |child: u16| child == NONE || (k + 1..count).contains(&usize::from(child));
        fits(node.positive) && fits(node.negative)
    })
}

pub fn times_named(scene: &Scene) -> Vec<usize> {
    let mut named = vec![0; scene.nodes.len()];
    for node in &scene.nodes {
        for child in [node.positive, node.negative] {
            if let Some(times) = named.get_mut(usize::from(child)) {
                *times += 1;
            }
        }
    }
    named
}

/// 6: "Do the nodes' patch runs follow each other from 0 and use every patch,
/// do the patches' corner runs do so with the corners, and has each patch 3 to
/// 8 corners? An empty run still names the place where it would begin."
fn runs_follow(_: &Call, scene: &Scene) -> bool {
    let patch_runs = scene.nodes.iter().map(|n| (n.first, n.count));
    let corner_runs = scene.records.iter().map(|r| (r.first, r.count));
    follow(patch_runs, scene.records.len())
        && follow(corner_runs, scene.corners.len())
        && scene.records.iter().all(|r| (3..=8).contains(&r.count))
}

pub fn follow(runs: impl Iterator<Item = (u16, u16)>, whole: usize) -> bool {
    let mut place = 0;
    for (first, count) in runs {
        if usize::from(first) != place {
            return false;
        }
        place += usize::from(count);
    }
    place == whole
}

/// 7: "Is each panel 1 to 1,024, never falling within a node's run?"
fn panels_in_order(_: &Call, scene: &Scene) -> bool {
    panels_in_range(scene) && panels_never_fall(scene)
}

pub fn panels_in_range(scene: &Scene) -> bool {
    let fits = |panel: u16| (1..=1_024).contains(&panel);
    scene.records.iter().all(|record| fits(record.panel))
}

pub fn panels_never_fall(scene: &Scene) -> bool {
    (0..scene.nodes.len()).all(|k| {
        let run = scene.patches_of(k);
        run.windows(2).all(|two| two[0].panel <= two[1].panel)
    })
}

/// 8: "Is each patch flat and strictly convex?"
fn patches_convex(_: &Call, scene: &Scene) -> bool {
    let patches = scene.patches();
    patches.iter().all(|p| flat(p) && strictly_convex(p))
}

/// "n the normal (b − a) × (c − a) of its first three corners".
pub fn patch_normal(patch: &Patch) -> Vector {
    match patch.corners[..] {
        [a, b, c, ..] => normal(a, b, c),
        _ => [0, 0, 0],
    }
}

/// "every corner is on their plane".
pub fn flat(patch: &Patch) -> bool {
    let n = patch_normal(patch);
    let a = patch.corners.first().map_or([0, 0, 0], |&a| wide(a));
    let corners = &patch.corners;
    corners.iter().all(|&q| dot(minus(wide(q), a), n) == 0)
}

/// "for each edge from v to w and each other corner q,
/// n · ((w − v) × (q − v)) is above 0".
pub fn strictly_convex(patch: &Patch) -> bool {
    let count = patch.corners.len();
    (0..count).all(|v| {
        let w = (v + 1) % count;
        let mut others = (0..count).filter(|&q| q != v && q != w);
        others.all(|q| turn(patch, v, w, q) > 0)
    })
}

pub fn turn(patch: &Patch, v: usize, w: usize, q: usize) -> i128 {
    let [v, w, q] = [v, w, q].map(|k| wide(patch.corners[k]));
    dot(patch_normal(patch), cross(minus(w, v), minus(q, v)))
}

/// 9: "Has each patch of a node all corners on the node's plane, each patch in
/// or below its positive child no corner on the negative side and at least one
/// on the positive, and the mirror of this in or below the negative child?"
fn patches_on_their_sides(_: &Call, scene: &Scene) -> bool {
    let parents = scene.parents();
    (0..scene.nodes.len()).all(|k| {
        scene.patches_of(k).iter().all(|patch| {
            let mut held = on_plane(&scene.nodes[k].points, patch);
            let mut below = k;
            while let Some((above, sign)) = parents[below] {
                held = held && on_side(&scene.nodes[above].points, sign, patch);
                below = above;
            }
            held
        })
    })
}

pub fn on_plane(plane: &[Point; 3], patch: &Patch) -> bool {
    patch.corners.iter().all(|&p| side(plane, p) == 0)
}

/// No corner on the other side, at least one on this: sign 1 or −1.
pub fn on_side(plane: &[Point; 3], sign: i128, patch: &Patch) -> bool {
    let corners = patch.corners.iter();
    let sides: Vec<i128> = corners.map(|&p| sign * side(plane, p)).collect();
    sides.iter().all(|&s| s >= 0) && sides.iter().any(|&s| s > 0)
}

/// 15: "when a double is not finite or its whole number leaves ±10,000, put just
/// before question 10." A station in units has no double.
pub fn station_turns(call: &Call, _: &Scene) -> bool {
    call.view.station.whole().is_some()
}

/// 10: "Is the eye within ±10,000, [...] lens 1 to 4,096?", and "Question 10 allows
/// the larger window and refuses a tile that is empty, above 256 by 128 or not wholly
/// inside it".
pub fn view_in_range(call: &Call, _: &Scene) -> bool {
    eye_in_range(call) && window_within(call, [1_024, 512, 4_096]) && tile_fits(call)
}

pub fn eye_in_range(call: &Call) -> bool {
    in_range(&call.view.eye())
}

/// "up to 1,024 by 512 cells": width, height and lens from 1 to these.
pub fn window_within(call: &Call, [width, height, lens]: [u16; 3]) -> bool {
    let view = &call.view;
    (1..=width).contains(&view.width)
        && (1..=height).contains(&view.height)
        && (1..=lens).contains(&view.lens)
}

/// The tile's part of 10.
pub fn tile_fits(call: &Call) -> bool {
    tile_within(call, [WIDEST, TALLEST]) && tile_inside(call)
}

/// Not empty, and at most of this size.
pub fn tile_within(call: &Call, [width, height]: [u16; 2]) -> bool {
    (1..=width).contains(&call.tile.width) && (1..=height).contains(&call.tile.height)
}

pub fn tile_inside(call: &Call) -> bool {
    call.tile.is_inside([call.view.width, call.view.height])
}

/// 14: "when a part is out of range or right · (forward × up) is not above 0,
/// put right after question 10."
pub fn axes_proper(call: &Call, _: &Scene) -> bool {
    parts_within(&call.view.axes, -100, 100) && call.view.axes.volume() > 0
}

/// "each part from −100 to 100".
pub fn parts_within(axes: &Axes, low: i16, high: i16) -> bool {
    let vectors = axes.vectors();
    let mut parts = vectors.iter().flatten();
    parts.all(|part| (low..=high).contains(part))
}

/// 12: "Is the station counter below 4,294,967,295?"
fn counter_can_rise(call: &Call, _: &Scene) -> bool {
    call.counter < 4_294_967_295
}
