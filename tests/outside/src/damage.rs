//! Damage to nodes and patches, aimed at questions 6 to 9. A harm need not
//! hit: the gate says what the damaged scene deserves.

use crate::loose::{Loose, Site};
use crate::random::Random;
use crate::scene::{Patch, NONE};
use crate::vector::Point;

/// Harms to nodes and patches, before the runs are laid out.
pub type LooseHarm = fn(&mut Loose, &mut Random);

pub const LOOSE: &[(u32, LooseHarm)] = &[
    (6, corners_few_or_many),
    (7, panel_out),
    (7, panel_falls),
    (8, corner_nudged),
    (8, corner_doubled),
    (8, corner_in_line),
    (8, corners_swapped),
    (8, corners_starred),
    (8, corner_reflected),
    (9, children_swapped),
    (9, plane_turned),
    (9, plane_nudged),
    (9, node_rehung),
    (9, patch_elsewhere),
    (9, patch_below_itself),
    (9, patch_below_anything),
    (9, site_moved),
];

fn some_site<'a>(loose: &'a mut Loose, rng: &mut Random) -> Option<&'a mut Site> {
    let count = loose.sites.len();
    (count > 0).then(|| &mut loose.sites[rng.below(count)])
}

fn some_patch<'a>(loose: &'a mut Loose, rng: &mut Random) -> Option<&'a mut Patch> {
    let mut all: Vec<&mut Patch> = Vec::new();
    for site in &mut loose.sites {
        // A patch that lost its corners before is left alone.
        let whole = site.patches.iter_mut().filter(|p| p.corners.len() > 2);
        all.extend(whole);
    }
    let count = all.len();
    (count > 0).then(|| all.swap_remove(rng.below(count)))
}

fn corners_few_or_many(loose: &mut Loose, rng: &mut Random) {
    let wanted = rng.pick(&[0, 1, 2, 2, 8, 9, 9, 10]);
    if let Some(patch) = some_patch(loose, rng) {
        while patch.corners.len() < wanted {
            patch.corners.push(patch.corners[0]);
        }
        patch.corners.truncate(wanted);
    }
}

fn panel_out(loose: &mut Loose, rng: &mut Random) {
    if let Some(patch) = some_patch(loose, rng) {
        patch.panel = rng.pick(&[0, 0, 1_025, 1_025, 65_535, 1, 1_024]);
    }
}

fn panel_falls(loose: &mut Loose, rng: &mut Random) {
    let many: Vec<&mut Site> = loose
        .sites
        .iter_mut()
        .filter(|site| site.patches.len() > 1)
        .collect();
    if many.is_empty() {
        return;
    }
    let at = rng.below(many.len());
    let patches = &mut many.into_iter().nth(at).expect("a site").patches;
    match rng.below(3) {
        0 => patches.reverse(),
        1 => rng.shuffle(patches),
        _ => {
            let k = rng.below(patches.len() - 1);
            patches[k].panel = patches[k + 1].panel.saturating_add(1);
        }
    }
}

fn corner_nudged(loose: &mut Loose, rng: &mut Random) {
    if let Some(patch) = some_patch(loose, rng) {
        let corner = rng.below(patch.corners.len());
        let axis = rng.below(3);
        patch.corners[corner][axis] += rng.pick(&[-1, 1]);
    }
}

fn corner_doubled(loose: &mut Loose, rng: &mut Random) {
    if let Some(patch) = some_patch(loose, rng) {
        let copy = rng.pick(&patch.corners);
        let at = rng.below(patch.corners.len());
        match rng.once_in(2) {
            true => patch.corners[at] = copy,
            false => patch.corners.insert(at, copy),
        }
    }
}

/// p + q − less, where that lies in the range.
pub fn added(p: Point, q: Point, less: Point) -> Option<Point> {
    let at = [0, 1, 2].map(|k| i64::from(p[k]) + i64::from(q[k]) - i64::from(less[k]));
    crate::polygon::point(at)
}

/// Sets a new corner so that the one before stands midway along an edge.
fn corner_in_line(loose: &mut Loose, rng: &mut Random) {
    if let Some(patch) = some_patch(loose, rng) {
        let at = rng.below(patch.corners.len());
        let next = (at + 1) % patch.corners.len();
        let (v, w) = (patch.corners[at], patch.corners[next]);
        if let Some(p) = added(w, w, v) {
            match rng.once_in(2) {
                true => patch.corners.insert(next + 1, p),
                false => {
                    patch.corners.insert(next + 1, p);
                    patch.corners.remove(rng.below(patch.corners.len()));
                }
            }
        }
    }
}

fn corners_swapped(loose: &mut Loose, rng: &mut Random) {
    if let Some(patch) = some_patch(loose, rng) {
        let (one, other) = (
            rng.below(patch.corners.len()),
            rng.below(patch.corners.len()),
        );
        patch.corners.swap(one, other);
    }
}

/// A star: each turn is a left turn, yet it winds twice.
fn corners_starred(loose: &mut Loose, rng: &mut Random) {
    for site in &mut loose.sites {
        for patch in site.patches.iter_mut().filter(|p| p.corners.len() > 4) {
            if rng.once_in(2) {
                let count = if patch.corners.len() > 6 { 7 } else { 5 };
                let star = (0..count).map(|k| patch.corners[2 * k % count]);
                patch.corners = star.collect();
                return;
            }
        }
    }
}

/// A corner thrown over the line of its neighbours: still flat, often dented.
fn corner_reflected(loose: &mut Loose, rng: &mut Random) {
    if let Some(patch) = some_patch(loose, rng) {
        let count = patch.corners.len();
        let at = rng.below(count);
        let [v, q, w] = [0, 1, 2].map(|k| patch.corners[(at + k) % count]);
        if let Some(p) = added(v, w, q) {
            patch.corners[(at + 1) % count] = p;
        }
    }
}

fn children_swapped(loose: &mut Loose, rng: &mut Random) {
    if let Some(site) = some_site(loose, rng) {
        std::mem::swap(&mut site.positive, &mut site.negative);
    }
}

fn plane_turned(loose: &mut Loose, rng: &mut Random) {
    if let Some(site) = some_site(loose, rng) {
        site.points.swap(0, 1 + rng.below(2));
    }
}

fn plane_nudged(loose: &mut Loose, rng: &mut Random) {
    if let Some(site) = some_site(loose, rng) {
        let (axis, step) = (rng.below(3), rng.pick(&[-1, 1]));
        let whole = rng.once_in(2);
        let one = rng.below(3);
        for (k, point) in site.points.iter_mut().enumerate() {
            if whole || k == one {
                point[axis] += step;
            }
        }
    }
}

/// A free place for a child of a node below `below`.
fn free_place(loose: &Loose, rng: &mut Random, below: usize) -> Option<(usize, bool)> {
    let mut free = Vec::new();
    for (k, site) in loose.sites.iter().enumerate().take(below) {
        free.extend((site.positive == NONE).then_some((k, true)));
        free.extend((site.negative == NONE).then_some((k, false)));
    }
    (!free.is_empty()).then(|| rng.pick(&free))
}

/// A node with all below it hangs elsewhere: often well under its new parent,
/// and not under the ones above.
fn node_rehung(loose: &mut Loose, rng: &mut Random) {
    if loose.sites.len() < 3 {
        return;
    }
    let own = 2 + rng.below(loose.sites.len() - 2);
    if let Some((above, front)) = free_place(loose, rng, own) {
        for site in &mut loose.sites {
            for child in [&mut site.positive, &mut site.negative] {
                if usize::from(*child) == own {
                    *child = NONE;
                }
            }
        }
        *loose.child(above, front) = own as u16;
    }
}

fn patch_elsewhere(loose: &mut Loose, rng: &mut Random) {
    let (from, to) = match loose.sites.len() {
        0 => return,
        count => (rng.below(count), rng.below(count)),
    };
    if let Some(patch) = loose.sites[from].patches.pop() {
        let patches = &mut loose.sites[to].patches;
        patches.push(patch);
        patches.sort_by_key(|p| p.panel);
    }
}

fn hang(loose: &mut Loose, place: (usize, bool), points: [Point; 3], patch: Patch) {
    let own = loose.sites.len();
    *loose.child(place.0, place.1) = own as u16;
    loose.sites.push(Site {
        points,
        positive: NONE,
        negative: NONE,
        patches: vec![patch],
    });
}

/// A patch wholly on the plane of a node hangs below that node.
fn patch_below_itself(loose: &mut Loose, rng: &mut Random) {
    let count = loose.sites.len();
    let Some(from) = (0..count).find(|&k| !loose.sites[k].patches.is_empty() && rng.once_in(2))
    else {
        return;
    };
    let patch = loose.sites[from].patches[0].clone();
    let points = loose.sites[from].points;
    let mut place = (from, rng.once_in(2));
    while *loose.child(place.0, place.1) != NONE {
        place = (usize::from(*loose.child(place.0, place.1)), rng.once_in(2));
    }
    hang(loose, place, points, patch);
}

/// A copy of any patch, on a plane of its own, hangs anywhere.
fn patch_below_anything(loose: &mut Loose, rng: &mut Random) {
    let count = loose.sites.len();
    let Some(patch) = some_patch(loose, rng).map(|p| p.clone()) else {
        return;
    };
    if let Some(place) = free_place(loose, rng, count) {
        let points = [patch.corners[0], patch.corners[1], patch.corners[2]];
        hang(loose, place, points, patch);
    }
}

/// A node's plane and patches move together, perhaps across planes above.
fn site_moved(loose: &mut Loose, rng: &mut Random) {
    let reach = rng.pick(&[1, 1, 4, 100]);
    let step = [0; 3].map(|_| rng.between(-reach, reach) as i16);
    if let Some(site) = some_site(loose, rng) {
        let corners = site.patches.iter_mut().flat_map(|p| p.corners.iter_mut());
        for p in site.points.iter_mut().chain(corners) {
            *p = [0, 1, 2].map(|k| p[k].wrapping_add(step[k]));
        }
    }
}
