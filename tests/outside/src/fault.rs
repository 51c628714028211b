//! Libraries made of the model with one fault each. The comparison must find
//! every fault, and find nothing where there is none.

use crate::call::{Call, Lent, Library};
use crate::compare::Difference;
use crate::cuttings::Cuttings;
use crate::differential::{case, put, Case, Tally};
use crate::gate::{Gate, STRUCK};
use crate::generate::Size;
use crate::map;
use crate::random::Random;
use crate::scene::Scene;
use crate::station::Station;
use crate::survey::{booked, Done};
use crate::wrong_booking::{Book, Painted};
use crate::wrong_buffers::{Spoil, Trace};
use crate::wrong_cuttings::Write;
use crate::wrong_map_rows::{FirstUnlit, LitCells};
use crate::wrong_paint::{painted, Look};
use crate::wrong_station::Turn;
use crate::wrong_tiles::Rises;

pub struct Faulty {
    pub name: String,
    /// The differences that must show.
    pub shows: Vec<Difference>,
    pub(crate) gate: Gate,
    pub(crate) survey_gate: Gate,
    pub(crate) look: Look,
    pub(crate) book: Book,
    pub(crate) write: Write,
    pub(crate) spoil: Spoil,
    pub(crate) trace: Trace,
    /// Does an accepted call raise the counter?
    pub(crate) rises: Rises,
    /// Other ways to units, of the survey and of the gate.
    pub(crate) turns: [Option<Turn>; 2],
    /// Is question 15 put before all others?
    pub(crate) early: bool,
    /// Does a row that holds 128 stretches give 13, a number that is struck and
    /// never an answer?
    pub(crate) struck: bool,
    /// The calls on a row of a map.
    pub(crate) row_lit: LitCells,
    pub(crate) row_first_unlit: FirstUnlit,
}

impl Faulty {
    /// No fault yet.
    pub fn none() -> Faulty {
        Faulty {
            name: "none".to_string(),
            shows: Vec::new(),
            gate: Gate::of_the_paper(),
            survey_gate: Gate::of_the_paper(),
            look: |scene, cell| cell.holder(&scene.patches()),
            book: |painted| booked(painted.holders, painted.patches.len()),
            write: |_, done| done,
            spoil: |_, _, _| (),
            trace: |_, _| (),
            rises: Call::holds_last,
            turns: [None; 2],
            early: false,
            struck: false,
            row_lit: map::row_lit,
            row_first_unlit: map::row_first_unlit,
        }
    }

    pub(crate) fn named(name: &str, shows: &[Difference]) -> Faulty {
        Faulty {
            name: name.to_string(),
            shows: shows.to_vec(),
            ..Faulty::none()
        }
    }

    /// The case of a run by which this fault has shown as it must, if any.
    pub fn found(&self, seed: u64, cases: u64, size: Size) -> Option<u64> {
        let mut tally = Tally::default();
        (0..cases).find(|&number| {
            let made = case(seed, number, size);
            if !self.can_show(&made) {
                return false;
            }
            let mut noise = Random::new(!seed, number);
            put(self, &made, &mut noise, &mut tally);
            let seen = &tally.differences;
            self.shows.iter().all(|shown| seen.contains_key(shown))
        })
    }

    /// The first of some pairs of cuttings by which this fault has shown, its own
    /// calls set against each other: by the pictures, the counts, the lists or the
    /// map, whichever are wrong.
    pub fn found_by_cuttings(&self, pairs: &[Cuttings]) -> Option<usize> {
        let shows = match self.shows[0] {
            Difference::Counts => Difference::CuttingsCounts,
            Difference::Unlit => Difference::CuttingsUnlit,
            Difference::Lit => Difference::CuttingsLit,
            _ => Difference::CuttingsPicture,
        };
        (0..pairs.len()).find(|&k| {
            let mut noise = Random::new(1, k as u64);
            pairs[k].apart(self, &mut noise).contains(&shows)
        })
    }

    /// A wrong gate shows only where it judges otherwise, and another way to units
    /// where it leads elsewhere; the comparison is spared the rest.
    fn can_show(&self, made: &Case) -> bool {
        let right = Gate::of_the_paper();
        let leads_elsewhere = |call: &Call| {
            let own = self
                .turns
                .map(|turn| taken(turn, call).view.station.whole());
            own != [call.view.station.whole(); 2]
        };
        let judges_otherwise = |call: &Call| Library::gate(self, call) != right.judge(call);
        let is_turned = self.turns.iter().any(Option::is_some);
        let is_gate = self.shows.contains(&Difference::Gate);
        made.calls().into_iter().any(|call| match is_turned {
            true => leads_elsewhere(call),
            false => !is_gate || judges_otherwise(call),
        })
    }

    fn judge(&self, gate: &Gate, call: &Call) -> u32 {
        match self.early && call.view.station.whole().is_none() {
            true => 15,
            false => gate.judge(call),
        }
    }
}

/// The call with its station as the library takes it.
fn taken(turn: Option<Turn>, call: &Call) -> Call {
    let mut own = call.clone();
    if let (Some(turn), Station::Metres(doubles)) = (turn, call.view.station) {
        let refused = Station::metres([f64::NAN; 3]);
        own.view.station = turn(doubles).map_or(refused, Station::Units);
    }
    own
}

impl Faulty {
    /// The picture as it looks, and the table as it books.
    fn painted(&self, call: &Call) -> Done {
        let scene = Scene::read(&call.scene);
        let patches = scene.patches();
        let holders = painted(&scene, call, self.look);
        let painted = Painted {
            scene: &scene,
            patches: &patches,
            view: call.view,
            tile: call.tile,
            holders: &holders,
        };
        let done = Done {
            patch_counts: (self.book)(&painted),
            ..Done::of(&holders, &patches, &call.tile)
        };
        (self.write)(&painted, done)
    }
}

impl Library for Faulty {
    fn survey(&self, call: &Call, lent: &mut Lent) -> u32 {
        let own = taken(self.turns[0], call);
        let number = self.judge(&self.survey_gate, &own);
        if number != 0 {
            (self.trace)(number, lent);
            return number;
        }
        // What a wrong gate let in cannot always be painted.
        if Gate::of_the_paper().judge(call) != 0 {
            return 0;
        }
        let done = self.painted(&own);
        let is_full = |row: &[u16]| row[255] > 0;
        if self.struck && done.unlit.chunks(256).any(is_full) {
            return STRUCK;
        }
        let before = lent.clone();
        done.leave(lent);
        lent.counter += u32::from((self.rises)(call));
        (self.spoil)(&done, &before, lent);
        0
    }

    fn gate(&self, call: &Call) -> u32 {
        self.judge(&self.gate, &taken(self.turns[1], call))
    }

    fn row_lit(&self, lit: &[u64], row: usize) -> u32 {
        (self.row_lit)(lit, row)
    }

    fn row_first_unlit(&self, lit: &[u64], width: u16, row: usize) -> u32 {
        (self.row_first_unlit)(lit, width, row)
    }
}
