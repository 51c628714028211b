//! Questions 1 to 12, 14 and 15, each to the whole scene before the next.

use super::boxes::planes_divide;
use super::plane::{cross, dot, Plane};
use super::tables::{is_node, point_fits, wide, within, Node, Patch, Tables};
use outside::call::{Call, COUNTS, ROW, WORDS};
use outside::gate::{sections_follow, size_and_version};

/// The decoded scene, or the number of the first question that says no.
pub fn judge(call: &Call) -> Result<Tables, u32> {
    let yes = |answer: bool, number: u32| if answer { Ok(()) } else { Err(number) };
    yes(size_and_version(&call.scene), 1)?;
    yes(sections_follow(&call.scene), 2)?;
    let tables = Tables::read(&call.scene);
    yes(tables.in_range, 3)?;
    yes(tables.nodes.iter().all(off_line), 4)?;
    yes(children_proper(&tables.nodes), 5)?;
    yes(runs_follow(&tables), 6)?;
    yes(panels_proper(&tables), 7)?;
    let mut patches = tables.patches.iter();
    yes(patches.all(|p| convex(tables.corners_of(p))), 8)?;
    yes(planes_divide(&tables), 9)?;
    yes(call.view.station.whole().is_some(), 15)?;
    yes(view_fits(call), 10)?;
    yes(axes_proper(call), 14)?;
    yes(lengths_fit(call, &tables), 11)?;
    yes(call.counter < u32::MAX, 12)?;
    Ok(tables)
}

fn off_line(node: &Node) -> bool {
    node.plane.normal != [0, 0, 0]
}

fn children_proper(nodes: &[Node]) -> bool {
    let mut named = [false; 1_024];
    let mut count = 0;
    for (k, node) in nodes.iter().enumerate() {
        for child in node.children.into_iter().filter(|&c| is_node(c)) {
            let child = usize::from(child);
            if child <= k || child >= nodes.len() || named[child] {
                return false;
            }
            named[child] = true;
            count += 1;
        }
    }
    count + 1 == nodes.len().max(1)
}

fn runs_follow(tables: &Tables) -> bool {
    let nodes = tables.nodes.iter().map(|n| (n.first, n.count));
    let patches = tables.patches.iter().map(|p| (p.first, p.count));
    let counted = |p: &Patch| (3..=8).contains(&p.count);
    follow(nodes, tables.patches.len())
        && follow(patches, tables.corners.len())
        && tables.patches.iter().all(counted)
}

fn follow(runs: impl Iterator<Item = (u16, u16)>, end: usize) -> bool {
    let mut place = 0;
    for (first, count) in runs {
        if usize::from(first) != place {
            return false;
        }
        place += usize::from(count);
    }
    place == end
}

fn panels_proper(tables: &Tables) -> bool {
    let in_range = |p: &Patch| (1..=1_024).contains(&p.panel);
    let rises = |run: &[Patch]| run.windows(2).all(|pair| pair[0].panel <= pair[1].panel);
    let mut nodes = tables.nodes.iter();
    tables.patches.iter().all(in_range) && nodes.all(|node| rises(tables.patches_of(node)))
}

/// Once a patch is flat, a turn has the sign that any part of its cross product
/// has against the same part of the normal: two products instead of nine.
fn convex(corners: &[[i16; 3]]) -> bool {
    let [a, b, c] = [corners[0], corners[1], corners[2]].map(wide);
    let plane = Plane::through(a, b, c);
    let Some(axis) = (0..3).find(|&k| plane.normal[k] != 0) else {
        return false;
    };
    let level = |p: &[i16; 3]| dot(wide(*p), plane.normal) == plane.level;
    let (s, t) = match axis {
        0 => (1, 2),
        1 => (2, 0),
        _ => (0, 1),
    };
    let mut flat = [[0; 2]; 8];
    for (place, p) in flat.iter_mut().zip(corners) {
        *place = [i32::from(p[s]), i32::from(p[t])];
    }
    let positive = plane.normal[axis] > 0;
    corners[3..].iter().all(level) && turns(&flat[..corners.len()], positive)
}

/// A turn does not change when its three corners are read round, so with up to
/// four corners the neighbours are all.
fn turns(corners: &[[i32; 2]], positive: bool) -> bool {
    let count = corners.len();
    let others = if count < 5 { 1 } else { count - 2 };
    let round = |k: usize| corners[if k < count { k } else { k - count }];
    (0..count).all(|k| {
        let ([vs, vt], [ws, wt]) = (round(k), round(k + 1));
        (0..others).all(|other| {
            let [qs, qt] = round(k + 2 + other);
            let turn = (ws - vs) * (qt - vt) - (wt - vt) * (qs - vs);
            turn != 0 && (turn > 0) == positive
        })
    })
}

fn view_fits(call: &Call) -> bool {
    let view = &call.view;
    point_fits(&view.eye())
        && (1..=1_024).contains(&view.width)
        && (1..=512).contains(&view.height)
        && (1..=4_096).contains(&view.lens)
        && tile_fits(call)
}

/// What is left of the window beside the tile's place does not wrap.
fn tile_fits(call: &Call) -> bool {
    let (view, tile) = (&call.view, &call.tile);
    let part_of = |first: u16, cells: u16, all: u16| first < all && cells <= all - first;
    (1..=256).contains(&tile.width)
        && (1..=128).contains(&tile.height)
        && part_of(tile.left, tile.width, view.width)
        && part_of(tile.top, tile.height, view.height)
}

fn axes_proper(call: &Call) -> bool {
    let axes = call.view.axes.vectors();
    let [right, forward, up] = axes.map(wide);
    axes.iter().all(|axis| within(axis, 100)) && dot(right, cross(forward, up)) > 0
}

fn lengths_fit(call: &Call, tables: &Tables) -> bool {
    call.picture_len == call.tile.cells()
        && call.counts_len == COUNTS
        && call.patch_counts_len == tables.patches.len()
        && call.unlit_len == usize::from(call.tile.height) * ROW
        && call.lit_len == usize::from(call.tile.height) * WORDS
}
