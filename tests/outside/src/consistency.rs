//! The model against itself: other ways to the same answers.

use crate::axes::LEVEL;
use crate::call::{Call, Lent, View, ROW};
use crate::compare::{check_pair, panel_sums_hold};
use crate::fault::Faulty;
use crate::map::{is_lit, words_of};
use crate::pairs::{parts, Pair, Pictures};
use crate::random::Random;
use crate::ray::{direction, holder, met, Line, Sight};
use crate::scene::Scene;
use crate::station::Station::Units;
use crate::stations::{t, VIEW};
use crate::steps::{each_alone, pierces};
use crate::survey::{holders, lines, survey, used_pairs, Done};
use crate::vector::{cross, dot, minus, wide, Vector};
use crate::walk::walk;

/// On every line: the first patch met on the walk has the cell, and of a line
/// alone both ways of meeting agree.
pub fn rays_agree(call: &Call) -> bool {
    let scene = Scene::read(&call.scene);
    let patches = scene.patches();
    let order = walk(&scene, call.view.eye());
    let first_has = |line: &Line| {
        let mut walked = order.iter().copied();
        walked.find(|&k| met(&patches[k], line)) == holder(&patches, line)
    };
    let agree = |line: &Line| {
        let along = line.along[0];
        let mut all = patches.iter();
        all.all(|p| met(p, line) == pierces(p, line.eye, along))
    };
    let [mut plain, mut beside] =
        [Sight::Plain, Sight::Beside].map(|sight| lines(sight, &call.view, &call.tile));
    order.len() == patches.len()
        && plain.all(|line| first_has(&line) && agree(&line))
        && beside.all(|line| first_has(&line))
}

/// Read plainly, each patch by itself has the cells that it is booked.
pub fn booked_once(call: &Call) -> bool {
    let lines = lines(Sight::Plain, &call.view, &call.tile);
    let along: Vec<Vector> = lines.map(|line| line.along[0]).collect();
    each_alone(call, Sight::Plain, &along)
}

/// In the old view "The cell's direction is (2i + 1 − width, lens, height − 1 −
/// 2j)".
pub fn old_directions_hold() -> bool {
    (1..=5).all(|width| {
        (1..=4).all(|height| {
            let view = View {
                width,
                height,
                ..VIEW
            };
            let [w, h] = [width, height].map(i128::from);
            (0..view.cells()).all(|at| {
                let (i, j) = (at % usize::from(width), at / usize::from(width));
                let old = [2 * i as i128 + 1 - w, 4, h - 1 - 2 * j as i128];
                direction(&view, i, j) == old
            })
        })
    })
}

/// A turned view shows what the level view shows of the patches turned back,
/// patch by patch: each corner told by how far it lies along right, forward and
/// up, times the volume. None where a corner so told is out of reach, or the
/// view is level.
pub fn turned_back(call: &Call) -> Option<bool> {
    let [right, forward, up] = call.view.axes.vectors().map(wide);
    let told_by = [cross(forward, up), cross(up, right), cross(right, forward)];
    let mut patches = Scene::read(&call.scene).patches();
    for corner in patches.iter_mut().flat_map(|p| p.corners.iter_mut()) {
        let from = minus(wide(*corner), wide(call.view.eye()));
        let [x, y, z] = told_by.map(|by| i16::try_from(dot(by, from)).ok());
        *corner = [x?, y?, z?];
    }
    let level = View {
        station: Units([0; 3]),
        axes: LEVEL,
        ..call.view
    };
    let shown = survey(call).expect("an accepted scene");
    (call.view.axes != LEVEL && shown.picture.iter().any(|&panel| panel > 0)).then(|| {
        let holders = holders(Sight::Beside, &patches, &level, &call.tile);
        Done::of(&holders, &patches, &call.tile) == shown
    })
}

/// The second scene has "just the first's patches less all those of the chosen
/// panels", and the model keeps demand 3.
pub fn pair_holds(pair: &Pair, rng: &mut Random) -> bool {
    let sorted = |call: &Call| {
        let mut patches = Scene::read(&call.scene).patches();
        patches.sort();
        patches
    };
    let mut kept = sorted(&pair.first);
    kept.retain(|p| !pair.chosen.contains(&p.panel));
    let outcomes = check_pair(&Faulty::none(), pair, rng);
    let clean = outcomes.iter().all(|o| o.differences.is_empty());
    kept == sorted(&pair.second) && clean
}

/// Counts and stretches both add up to what the picture holds, and the patches'
/// cells to what is lit.
pub fn sums_hold(call: &Call) -> bool {
    let done = survey(call).expect("an accepted scene");
    let unlit: u32 = done.unlit.chunks(2).map(|pair| u32::from(pair[1])).sum();
    let lit: u32 = done.patch_counts.iter().sum();
    let cells = call.tile.cells() as u32;
    let mut lent = Lent::noise(call, &mut Random::new(0, 0));
    done.leave(&mut lent);
    done.counts.iter().sum::<u32>() == cells
        && done.counts[0] == unlit
        && lit + unlit == cells
        && panel_sums_hold(call, &lent)
}

/// "Map and list describe the same cells", and beyond the width the map is clear.
pub fn map_and_lists_agree(call: &Call) -> bool {
    let done = survey(call).expect("an accepted scene");
    let [width, height] = [call.tile.width, call.tile.height].map(usize::from);
    (0..height).all(|j| {
        let pairs = used_pairs(&done.unlit, j).chunks(2);
        let stretch = |pair: &[u16]| usize::from(pair[0])..usize::from(pair[0] + pair[1]);
        let unlit: Vec<usize> = pairs.flat_map(stretch).collect();
        let words = words_of(&done.lit, j).expect("a row of the map");
        (0..ROW).all(|i| is_lit(words, i) == (i < width && !unlit.contains(&i)))
    })
}

/// Each part of demand 3 is told apart: a pair of results, spoiled in one way,
/// breaks just the parts it should.
pub fn parts_are_told_apart() -> Vec<(&'static str, bool)> {
    let pair = Pair {
        first: Call::new(t(0).write(), VIEW),
        second: Call::new(t(7).write(), VIEW),
        chosen: vec![7],
    };
    let mut rng = Random::new(1, 1);
    let [one, two] = check_pair(&Faulty::none(), &pair, &mut rng);
    let (one, two) = (one.lent, two.lent);
    let broken = |first: &dyn Fn(&mut Lent), second: &dyn Fn(&mut Lent)| {
        let (mut a, mut b) = (one.clone(), two.clone());
        first(&mut a);
        second(&mut b);
        parts(&pair, &Pictures::of(&a, &b), 1).map(|held| !held)
    };
    let nothing: &dyn Fn(&mut Lent) = &|_| ();
    // Cell 5 shows panel 7 first and panel 5 then; cell 0 shows nothing.
    vec![
        ("nothing broken", broken(nothing, nothing) == [false; 4]),
        (
            "part 1",
            broken(&|a| a.counts[7] = 0, nothing) == [true, false, false, false],
        ),
        (
            "part 2",
            broken(&|a| a.picture[0] = 1, &|b| b.picture[0] = 1) == [false, true, false, false],
        ),
        (
            "part 3",
            broken(nothing, &|b| b.picture[0] = 1) == [false, false, true, false],
        ),
        (
            "part 4",
            broken(nothing, &|b| b.picture[5] = 1) == [false, false, false, true],
        ),
    ]
}
