//! Patches without a tree: small, level, far and thin ones.

use crate::polygon::{point, Basis};
use crate::random::Random;
use crate::scene::Patch;
use crate::vector::Point;

pub type Corners = Vec<Point>;

/// Tries until `wanted` polygons stand, or many tries failed.
pub fn gather(
    rng: &mut Random,
    wanted: usize,
    mut one: impl FnMut(&mut Random) -> Option<Corners>,
) -> Vec<Corners> {
    let mut found = Vec::new();
    for _ in 0..20 * wanted {
        if found.len() < wanted {
            found.extend(one(rng));
        }
    }
    found
}

/// Panel numbers: all different, few, any, one, or the ends of the range.
pub fn numbered(rng: &mut Random, polygons: Vec<Corners>) -> Vec<Patch> {
    let habit = rng.below(6);
    let one = rng.between(1, 1_024);
    let mut all: Vec<i64> = (1..=1_024).collect();
    rng.shuffle(&mut all);
    let patches = polygons.into_iter().enumerate().map(|(k, corners)| {
        let panel = match habit {
            0 | 1 => all[k % 1_024],
            2 => rng.between(1, 4),
            3 => rng.between(1, 1_024),
            4 => one,
            _ => rng.pick(&[1, 2, 1_023, 1_024]),
        };
        let panel = panel as u16;
        Patch { panel, corners }
    });
    patches.collect()
}

/// Now and then a patch stands again: the same, under another panel, from
/// another start, or the other way round.
pub fn repeated(rng: &mut Random, mut patches: Vec<Patch>) -> Vec<Patch> {
    while !patches.is_empty() && patches.len() < 900 && rng.once_in(2) {
        let mut patch = rng.pick(&patches);
        if rng.once_in(2) {
            patch.panel = rng.between(1, 1_024) as u16;
        }
        match rng.below(4) {
            0 => patch.corners.rotate_left(1),
            1 => patch.corners.reverse(),
            _ => (),
        }
        let at = rng.below(patches.len() + 1);
        patches.insert(at, patch);
    }
    patches
}

/// Any plane through lattice points from −3 to 3.
pub fn tiny(rng: &mut Random) -> Vec<Corners> {
    let wanted = 3 + rng.below(40);
    let size = rng.between(1, 6);
    gather(rng, wanted, |rng| {
        let low = [0; 3].map(|_| rng.between(-3, 3 - size));
        crate::polygon::in_box(rng, low, low.map(|n| n + size))
    })
}

/// Planes square to an axis, from −3 to 3: shared edges and corners abound.
pub fn grid(rng: &mut Random) -> Vec<Corners> {
    let wanted = 3 + rng.below(60);
    gather(rng, wanted, |rng| {
        let size = rng.between(1, 4);
        let low = [0; 3].map(|_| rng.between(-3, 3 - size));
        let mut high = low.map(|n| n + size);
        let axis = rng.below(3);
        high[axis] = low[axis];
        crate::polygon::in_box(rng, low, high)
    })
}

/// Many overlapping polygons on one to three planes.
pub fn level(rng: &mut Random) -> Vec<Corners> {
    let (reach, step) = rng.pick(&[(3, 1), (3, 2), (50, 9), (900, 40), (5_000, 900)]);
    let bases: Vec<Basis> = (0..1 + rng.below(3))
        .map(|_| Basis::any(rng, reach, step))
        .collect();
    let wanted = 2 + rng.below(24);
    gather(rng, wanted, |rng| {
        let grid = rng.between(1, 5);
        rng.pick(&bases).polygon(rng, grid)
    })
}

/// Any plane, places up to some hundreds.
pub fn medium(rng: &mut Random) -> Vec<Corners> {
    let wanted = 3 + rng.below(50);
    let reach = rng.pick(&[20, 100, 300, 2_000]);
    gather(rng, wanted, |rng| {
        let basis = Basis::any(rng, reach, 1 + reach / 12);
        let grid = rng.between(1, 6);
        basis.polygon(rng, grid)
    })
}

/// A coordinate at or near the ends of the range, or at the middle.
pub fn end(rng: &mut Random) -> i64 {
    match rng.below(4) {
        0 => rng.pick(&[-10_000, 10_000]),
        1 => rng.pick(&[-9_999, 9_999, -1, 0, 1]),
        _ => rng.between(-10_000, 10_000),
    }
}

/// Wide patches that reach from end to end.
pub fn far(rng: &mut Random) -> Vec<Corners> {
    let wanted = 2 + rng.below(10);
    gather(rng, wanted, |rng| match rng.below(3) {
        0 => wide_triangle(rng),
        1 => {
            let mut basis = Basis::any(rng, 10_000, 5_000);
            basis.origin = basis.origin.map(|n| n - n % 5_000);
            let grid = rng.between(1, 4);
            basis.polygon(rng, grid)
        }
        _ => {
            // The whole range, square to an axis or leaning.
            let axis = rng.below(3);
            let mut basis = Basis::any(rng, 0, 0);
            basis.origin = [-10_000; 3];
            basis.origin[axis] = end(rng);
            basis.u[(axis + 1) % 3] = rng.pick(&[5_000, 6_666]);
            basis.v[(axis + 2) % 3] = rng.pick(&[5_000, 6_666]);
            basis.v[axis] = rng.pick(&[0, 0, 1, -1, 2_500]);
            let grid = rng.between(3, 4);
            basis.polygon(rng, grid)
        }
    })
}

fn wide_triangle(rng: &mut Random) -> Option<Corners> {
    let outermost = rng.once_in(3);
    let mut coordinate = || match outermost {
        true => rng.pick(&[-10_000, 10_000, 9_999]),
        false => end(rng),
    };
    let any: Corners = (0..3)
        .filter_map(|_| point([0; 3].map(|_| coordinate())))
        .collect();
    let off_line = crate::vector::normal(any[0], any[1], any[2]) != [0, 0, 0];
    off_line.then_some(any)
}

/// Wide patches one unit apart, or sharing an edge and all but one plane.
pub fn thin(rng: &mut Random) -> Vec<Corners> {
    let mut found = gather(rng, 1, wide_triangle);
    let wanted = 2 + rng.below(8);
    found.extend(gather(rng, 1, |rng| {
        Basis::any(rng, 3_000, 1_500).polygon(rng, 4)
    }));
    let first = found.clone();
    found.extend(gather(rng, wanted, |rng| {
        let mut corners = rng.pick(&first);
        let axis = rng.below(3);
        let step = rng.pick(&[-1, 1, 2]);
        let start = rng.below(corners.len());
        corners.rotate_left(start);
        if rng.once_in(2) {
            corners.truncate(3);
            corners[2][axis] += step;
        } else {
            corners.iter_mut().for_each(|p| p[axis] += step);
        }
        let off_line = crate::vector::normal(corners[0], corners[1], corners[2]) != [0, 0, 0];
        (off_line && corners.iter().all(crate::gate::in_range)).then_some(corners)
    }));
    found
}
