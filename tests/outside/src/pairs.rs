//! Two scenes, one station and window, chosen panels: demand 3.

use crate::call::{Call, Lent};
use crate::generate::{make, second, Kind, Size};
use crate::random::Random;
use crate::ray::{closest, Sight};
use crate::scene::{Patch, Scene};
use crate::survey::{counts, holders, picture, some_lines};

#[derive(Clone, Debug)]
pub struct Pair {
    pub first: Call,
    pub second: Call,
    pub chosen: Vec<u16>,
}

/// A pair where "the second scene has just the first's patches less all those
/// of the chosen panels".
pub fn make_pair(rng: &mut Random, kind: Kind, size: Size) -> Pair {
    let made = make(rng, kind, size);
    let patches = made.loose.patches();
    let holders = holders(Sight::Beside, &patches, &made.view, &made.tile);
    let shown = counts(&picture(&patches, &holders));
    let chosen = choose(rng, &patches, &shown);
    let other = second(rng, &made.loose, &chosen);
    Pair {
        first: made.call(&made.loose),
        second: made.call(&other),
        chosen,
    }
}

/// "Chosen panels are any numbers from 1 to 1,024, on patches or not", perhaps
/// none.
fn choose(rng: &mut Random, patches: &[Patch], shown: &[u32]) -> Vec<u16> {
    let mut all: Vec<u16> = patches.iter().map(|p| p.panel).collect();
    all.sort();
    all.dedup();
    let is_shown = |panel: &u16| shown[usize::from(*panel)] > 0;
    let mut chosen: Vec<u16> = match rng.below(6) {
        0 => Vec::new(),
        1 => all.iter().copied().filter(|p| !is_shown(p)).collect(),
        2 => all.iter().copied().filter(is_shown).collect(),
        3 => all.clone(),
        4 => all.iter().copied().filter(is_shown).take(1).collect(),
        _ => all.iter().copied().filter(|_| rng.once_in(3)).collect(),
    };
    if rng.once_in(3) {
        chosen.extend([1, 1_024, rng.between(1, 1_024) as u16]);
        chosen.sort();
        chosen.dedup();
    }
    chosen
}

/// What two calls left, or two windows put together from tiles.
pub struct Pictures<'a> {
    pub first: &'a [u16],
    pub second: &'a [u16],
    /// Those of the first.
    pub counts: &'a [u32],
}

impl Pictures<'_> {
    pub fn of<'a>(first: &'a Lent, second: &'a Lent) -> Pictures<'a> {
        Pictures {
            first: &first.picture,
            second: &second.picture,
            counts: &first.counts,
        }
    }
}

/// The four parts of demand 3, on the results of both calls; of what is closest one
/// cell in so many is tried.
pub fn parts(pair: &Pair, pictures: &Pictures, step: usize) -> [bool; 4] {
    let patches = Scene::read(&pair.first.scene).patches();
    let is_chosen = |panel: u16| pair.chosen.contains(&panel);
    let mut kept = patches.clone();
    kept.retain(|patch| !is_chosen(patch.panel));

    // "The two pictures are equal, cell by cell, exactly when every chosen
    // panel's count, from the call on the first scene, is zero."
    let equal = pictures.first == pictures.second;
    let mut chosen = pair.chosen.iter();
    let none_counted = chosen.all(|&panel| pictures.counts[usize::from(panel)] == 0);
    let mut held = [equal == none_counted, true, true, true];

    // "the pictures differ in exactly the cells where the first shows a chosen
    // panel".
    let mut cells = pictures.first.iter().zip(pictures.second);
    held[2] = cells.all(|(&one, &two)| (one != two) == is_chosen(one));
    let Call { view, tile, .. } = &pair.first;
    for (at, line) in some_lines(step, view, tile) {
        let (one, two) = (pictures.first[at], pictures.second[at]);
        // "each cell of the first holds its closest panel [...], or 0".
        held[1] &= one == closest(&patches, &line);
        // "in each of these the second shows the closest of the panels kept,
        // or 0".
        if is_chosen(one) {
            held[3] &= two == closest(&kept, &line);
        }
    }
    held
}
