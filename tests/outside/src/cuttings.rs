//! "One ring, two cuttings": two scenes whose panels cover the same points, each
//! cut in its own way and under a tree of its own, and one view of both.

use crate::along::sighted;
use crate::call::{Call, Lent, Library};
use crate::compare::{cuttings_apart, Difference};
use crate::forms::in_two_forms;
use crate::gate::Gate;
use crate::generate::Size;
use crate::loose::Loose;
use crate::panels::{cutting, laid_out, Part};
use crate::planner::Planner;
use crate::random::Random;
use crate::ray::Sight;
use crate::scene::{Patch, Scene};
use crate::survey::{survey_by, Done};
use crate::tiles::placed;

#[derive(Clone, Debug)]
pub struct Cuttings {
    pub first: Call,
    pub second: Call,
    /// Rings given up before this one: it had no panel, a piece could not be cut
    /// where its tree had to, or a scene was not accepted.
    pub given_up: u64,
}

/// As many rays times patches as a pair costs at most, or so.
const WORK: usize = 8_000;

/// Two accepted scenes; another ring is laid out where one is not.
pub fn make_cuttings(rng: &mut Random, size: Size) -> Cuttings {
    let mut given_up = 0;
    loop {
        if let Some([first, second]) = two_calls(rng, size) {
            return Cuttings {
                first,
                second,
                given_up,
            };
        }
        given_up += 1;
    }
}

fn two_calls(rng: &mut Random, size: Size) -> Option<[Call; 2]> {
    let parts = laid_out(rng);
    if parts.is_empty() {
        return None;
    }
    let scenes = [planned(rng, &parts)?, planned(rng, &parts)?];
    let patches = rng.pick(&scenes).patches();
    let view = sighted(rng, &parts, &patches, size.work.min(WORK));
    let (view, tile) = placed(rng, view);
    let mut calls = scenes.map(|scene| {
        let any = rng.next() as u32 / 2;
        Call {
            counter: rng.pick(&[0, u32::MAX - 1, any]),
            ..Call::of_tile(scene.write(), view, tile)
        }
    });
    let [first, second] = &mut calls;
    in_two_forms(rng, first, second);
    let gate = Gate::of_the_paper();
    let accepted = calls.iter().all(|call| gate.judge(call) == 0);
    accepted.then_some(calls)
}

/// A cutting of its own under a tree of its own.
fn planned(rng: &mut Random, parts: &[Part]) -> Option<Scene> {
    let patches = cutting(rng, parts);
    let spare = rng.pick(&[0, 1, 3]);
    let mut planner = Planner {
        rng: &mut *rng,
        spare,
        cuts: 40,
    };
    let root = planner.plant(patches)?;
    Some(Loose::of(rng, root).pack())
}

impl Cuttings {
    pub fn calls(&self) -> [&Call; 2] {
        [&self.first, &self.second]
    }

    pub fn patches(&self) -> [Vec<Patch>; 2] {
        self.calls().map(|call| Scene::read(&call.scene).patches())
    }

    /// What the model makes of both, its sight lines read in one way.
    pub fn done(&self, sight: Sight) -> [Done; 2] {
        self.calls()
            .map(|call| survey_by(sight, call).expect("an accepted scene"))
    }

    /// What a library's two calls leave, set against each other and against
    /// nothing else.
    pub fn apart(&self, library: &dyn Library, rng: &mut Random) -> Vec<Difference> {
        let [first, second] = self.calls().map(|call| {
            let mut lent = Lent::noise(call, rng);
            library.survey(call, &mut lent);
            lent
        });
        cuttings_apart(&first, &second)
    }
}
