//! Questions put wrongly, for the gates that are right but for one thing.

use crate::call::Call;
use crate::gate::*;
use crate::scene::{pair_at, u16_at, u32_at, Scene, NONE};
use crate::vector::{dot, minus, wide};

pub fn fits(b: &[u8]) -> bool {
    (32..=57_376).contains(&b.len()) && u32_at(b, 4) as usize == b.len()
}

pub fn heads(b: &[u8]) -> bool {
    u16_at(b, 0) == 1 && u16_at(b, 2) == 0 && u32_at(b, 4) as usize == b.len()
}

pub fn tail_allowed(bytes: &[u8]) -> bool {
    let (offset, length) = pair_at(bytes, 2);
    let end = u64::from(offset) + u64::from(length);
    let mut short = bytes.to_vec();
    short[4..8].copy_from_slice(&(end as u32).to_le_bytes());
    end <= bytes.len() as u64 && sections_follow(&short)
}

/// Only the order of the sections is looked at.
pub fn gap_allowed(bytes: &[u8]) -> bool {
    let mut place = 32;
    for (k, most) in [1_024, 1_024, 4_096].into_iter().enumerate() {
        let (offset, length) = pair_at(bytes, k);
        let (offset, length) = (u64::from(offset), u64::from(length));
        let size = [26, 6, 6][k];
        if offset < place || length % size != 0 || length / size > most {
            return false;
        }
        place = offset + length;
    }
    place == bytes.len() as u64
}

pub fn coordinates_within(scene: &Scene, low: i16, high: i16) -> bool {
    let points = scene.nodes.iter().flat_map(|node| node.points.iter());
    let mut all = points.chain(&scene.corners).flatten();
    all.all(|n| (low..=high).contains(n))
}

pub fn named(scene: &Scene) -> impl Iterator<Item = usize> {
    times_named(scene).into_iter().skip(1)
}

pub fn children_not_below(scene: &Scene) -> bool {
    let count = scene.nodes.len();
    scene.nodes.iter().enumerate().all(|(k, node)| {
        let fits = |child: u16| child == NONE || (k..count).contains(&usize::from(child));
        fits(node.positive) && fits(node.negative)
    })
}

pub fn runs(scene: &Scene) -> [Vec<(u16, u16)>; 2] {
    [
        scene.nodes.iter().map(|n| (n.first, n.count)).collect(),
        scene.records.iter().map(|r| (r.first, r.count)).collect(),
    ]
}

pub fn counts_fit(scene: &Scene, low: u16, high: u16) -> bool {
    let mut records = scene.records.iter();
    records.all(|r| (low..=high).contains(&r.count))
}

pub fn cornered(scene: &Scene, low: u16, high: u16) -> bool {
    let [patches, corners] = runs(scene);
    follow(patches.into_iter(), scene.records.len())
        && follow(corners.into_iter(), scene.corners.len())
        && counts_fit(scene, low, high)
}

pub fn empty_anywhere(_: &Call, scene: &Scene) -> bool {
    let [mut patches, corners] = runs(scene);
    patches.retain(|run| run.1 > 0);
    follow(patches.into_iter(), scene.records.len())
        && follow(corners.into_iter(), scene.corners.len())
        && counts_fit(scene, 3, 8)
}

pub fn unused_patches(_: &Call, scene: &Scene) -> bool {
    let [patches, corners] = runs(scene);
    let used = patches.iter().map(|run| usize::from(run.1)).sum();
    used <= scene.records.len()
        && follow(patches.into_iter(), used)
        && follow(corners.into_iter(), scene.corners.len())
        && counts_fit(scene, 3, 8)
}

pub fn unused_corners(_: &Call, scene: &Scene) -> bool {
    let [patches, corners] = runs(scene);
    let used = corners.iter().map(|run| usize::from(run.1)).sum();
    used <= scene.corners.len()
        && follow(patches.into_iter(), scene.records.len())
        && follow(corners.into_iter(), used)
        && counts_fit(scene, 3, 8)
}

/// Every patch used once, the runs wherever they like.
pub fn any_order(_: &Call, scene: &Scene) -> bool {
    let [mut patches, corners] = runs(scene);
    patches.sort();
    follow(patches.into_iter(), scene.records.len())
        && follow(corners.into_iter(), scene.corners.len())
        && counts_fit(scene, 3, 8)
}

pub fn equal_refused(_: &Call, scene: &Scene) -> bool {
    panels_in_range(scene)
        && (0..scene.nodes.len()).all(|k| {
            let run = scene.patches_of(k);
            run.windows(2).all(|two| two[0].panel < two[1].panel)
        })
}

pub fn next_corner_only(_: &Call, scene: &Scene) -> bool {
    scene.patches().iter().all(|p| {
        let count = p.corners.len();
        flat(p) && (0..count).all(|v| turn(p, v, (v + 1) % count, (v + 2) % count) > 0)
    })
}

pub fn in_line_passes(_: &Call, scene: &Scene) -> bool {
    scene.patches().iter().all(|p| {
        let count = p.corners.len();
        let other = |v: usize, q: usize| q == v || q == (v + 1) % count;
        let left = |v: usize, q: usize| turn(p, v, (v + 1) % count, q) >= 0;
        let all = |v: usize| (0..count).all(|q| other(v, q) || left(v, q));
        patch_normal(p) != [0, 0, 0] && flat(p) && (0..count).all(all)
    })
}

/// The normal must point against the second axis.
pub fn one_way_round(_: &Call, scene: &Scene) -> bool {
    let patches = scene.patches();
    let mut all = patches.iter();
    all.all(|p| flat(p) && strictly_convex(p) && patch_normal(p)[1] <= 0)
}

pub fn parent_only(_: &Call, scene: &Scene) -> bool {
    let parents = scene.parents();
    (0..scene.nodes.len()).all(|k| {
        scene.patches_of(k).iter().all(|patch| {
            let under = parents[k]
                .is_none_or(|(above, sign)| on_side(&scene.nodes[above].points, sign, patch));
            under && on_plane(&scene.nodes[k].points, patch)
        })
    })
}

/// Question 9 with the own plane or the "at least one" left out.
pub fn sides(scene: &Scene, own: bool, at_least_one: bool) -> bool {
    every_ancestor(scene, own, |sides| {
        sides.iter().all(|&s| s >= 0) && (!at_least_one || sides.iter().any(|&s| s > 0))
    })
}

pub fn sides_in_32_bits(_: &Call, scene: &Scene) -> bool {
    every_ancestor(scene, true, |sides| {
        let short = |s: &i128| *s as i32;
        sides.iter().all(|s| short(s) >= 0) && sides.iter().any(|s| short(s) > 0)
    })
}

pub fn touching_refused(_: &Call, scene: &Scene) -> bool {
    every_ancestor(scene, true, |sides| sides.iter().all(|&s| s > 0))
}

pub fn every_ancestor(scene: &Scene, own: bool, held: impl Fn(&[i128]) -> bool) -> bool {
    let parents = scene.parents();
    (0..scene.nodes.len()).all(|k| {
        scene.patches_of(k).iter().all(|patch| {
            let mut good = !own || on_plane(&scene.nodes[k].points, patch);
            let mut below = k;
            while let Some((above, sign)) = parents[below] {
                let points = scene.nodes[above].points;
                let n = crate::vector::normal(points[0], points[1], points[2]);
                let from = wide(points[0]);
                let side = |p| sign * dot(minus(wide(p), from), n);
                let sides: Vec<i128> = patch.corners.iter().map(|&p| side(p)).collect();
                good = good && held(&sides);
                below = above;
            }
            good
        })
    })
}

/// Question 14 with other ends of a part.
pub fn axes_fit(call: &Call, low: i16, high: i16) -> bool {
    parts_within(&call.view.axes, low, high) && call.view.axes.volume() > 0
}

/// Question 14 with something else asked of the volume.
pub fn volume(call: &Call, held: fn(i128) -> bool) -> bool {
    parts_within(&call.view.axes, -100, 100) && held(call.view.axes.volume())
}

/// Question 14 with part K of the nine taken for 0 where its range is asked.
pub fn unseen<const K: usize>(call: &Call, _: &Scene) -> bool {
    let mut others = call.view.axes;
    *others.part(K) = 0;
    parts_within(&others, -100, 100) && call.view.axes.volume() > 0
}
