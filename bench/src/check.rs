//! Every result is the same, or there is nothing to time.

use crate::jobs::Job;
use crate::peers::PEERS;
use crate::scenes;
use crate::walls::double_wall;
use outside::call::{Call, Lent, Library};
use outside::differential::{case, put, Case, Tally};
use outside::generate::SMALL;
use outside::random::Random;
use outside::ray::Sight;
use outside::survey::Due;
use outside::tile::{Tile, TALLEST, WIDEST};
use outside::whole::covers_once;
use std::collections::BTreeSet;

/// Library and peers agree on each tile of a job that is timed: picture, counts,
/// patch counts, lists, map, counter, and what is asked of its rows.
pub fn same(library: &dyn Library, job: &Job) {
    let (name, view) = (&job.name, &job.call.view);
    let covered = covers_once([view.width, view.height], job.tiles.iter().copied());
    assert!(covered, "{name}: the tiles are the window, each cell once");
    for &tile in &job.tiles {
        let call = job.call.with(&|call| call.tile = tile);
        assert_eq!(library.gate(&call), 0, "{name} passes the gate");
        let others = differing(library, &call);
        assert!(others.is_empty(), "{name}: {others:?} differ in {tile:?}");
    }
}

/// The peers that leave other numbers in a legal call than the library does, or
/// answer otherwise on a row of the map that it leaves or on the row behind.
fn differing(library: &dyn Library, call: &Call) -> Vec<&'static str> {
    let left = |who: &dyn Library, seed| {
        let mut lent = Lent::noise(call, &mut Random::new(seed, 0));
        assert_eq!(who.survey(call, &mut lent), 0, "the call is legal");
        lent
    };
    let wanted = left(library, 0);
    let answers = |who: &dyn Library| -> Vec<[u32; 2]> {
        let (lit, width) = (&wanted.lit, call.tile.width);
        let rows = 0..=usize::from(call.tile.height);
        rows.map(|j| [who.row_lit(lit, j), who.row_first_unlit(lit, width, j)])
            .collect()
    };
    let others = (1..).zip(&PEERS);
    others
        .filter(|&(seed, peer)| left(peer, seed) != wanted || answers(peer) != answers(library))
        .map(|(_, peer)| peer.name)
        .collect()
}

/// Where joints lie on sight lines, who reads such a line by itself is told from
/// all peers, and who reads it as the lines beside it from none: in a whole window,
/// and in tiles with joints along their first column and row, and along their last.
pub fn joints() {
    let view = scenes::window(32);
    for numbers in [[0, 0, 32, 16], [8, 8, 24, 8], [0, 0, 9, 9]] {
        let call = Call::of_tile(double_wall(&view).write(), view, Tile::of(numbers));
        for (sight, others) in [(Sight::Beside, 0), (Sight::Plain, PEERS.len())] {
            let found = differing(&Due::by(sight, &call), &call);
            assert_eq!(found.len(), others, "{sight:?} and {found:?}: {numbers:?}");
        }
    }
}

/// Each peer against the model on random scenes, whole and damaged, from level
/// and turned views, in units and in metres.
pub fn random(cases: u64) {
    let (mut noise, mut tally) = (Random::new(1, 1), Tally::default());
    let mut tiles = BTreeSet::new();
    for number in 0..cases {
        let case = case(1, number, SMALL);
        tiles.extend(tiles_of(&case));
        for peer in &PEERS {
            let differences = put(peer, &case, &mut noise, &mut tally);
            let what = format!("{} in case {number}", peer.name);
            assert!(differences.is_empty(), "{what}: {differences:?}");
        }
    }
    // Without them a peer would pass that only knows the level view, and one that
    // books by panel, or the later of two level patches, or sees through joints, or
    // takes a station in metres for another.
    let turned = tally.turned.lit > 0 && tally.answers.contains_key(&14);
    assert!(cases < 100 || turned, "turned views are among the cases");
    let never = tally.never_shown();
    assert!(cases < 1_500 || never.is_empty(), "never shown: {never:?}");
    // Nor one that takes every tile for a window, or raises the counter with each.
    assert!(
        cases < 1_500 || tiles.len() == 4,
        "only {tiles:?} are tried"
    );
}

/// The parts of windows in which a made scene is drawn: is the window more than a
/// tile, and does the part hold its last cell?
fn tiles_of(case: &Case) -> BTreeSet<[bool; 2]> {
    let is_legal = matches!(case, Case::Scene(..) | Case::Two(..));
    let calls = case.calls().into_iter().filter(|_| is_legal);
    let parts = calls.filter(|call| call.tile != call.view.whole());
    let is_large = |call: &Call| call.view.width > WIDEST || call.view.height > TALLEST;
    parts
        .map(|call| [is_large(call), call.holds_last()])
        .collect()
}
