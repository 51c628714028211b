//! Calls with what is due for them, known beforehand: the turned stations,
//! those booked patch by patch, those of joints, those of stretches, those of
//! cuttings, those in metres, those of the map, and the stored cases.

use crate::block::Reading;
use crate::booking::booking;
use crate::call::{Call, Lent, Library, View};
use crate::cases::stored;
use crate::compare::{check_due, cuttings_apart, Difference};
use crate::joints::joints;
use crate::map_stations::maps;
use crate::metres::metres;
use crate::random::Random;
use crate::ray::Sight;
use crate::rings::rings;
use crate::scene::Scene;
use crate::stretches::stretches;
use crate::survey::{counts, is_read_otherwise, Done, Due};
use crate::tile_cases::Group;
use crate::tile_stations::tile_stations;
use crate::turned::turned;
use crate::whole::{Piece, Whole};
use crate::window_stations::window_stations;

pub struct Trial {
    pub name: String,
    pub call: Call,
    pub due: Due,
}

/// A picture of a station: rows from the top, one digit a cell.
pub fn digits(rows: &str) -> Vec<u16> {
    let digits = rows.chars().filter_map(|c| c.to_digit(10));
    digits.map(|panel| panel as u16).collect()
}

/// A call from a counter of 0, with its picture and its patches' cells.
pub fn accepted(name: &str, call: Call, rows: &str, cells: &[u32]) -> Trial {
    let done = Done::told(digits(rows), cells.to_vec(), &call.tile);
    Trial {
        name: name.to_string(),
        call,
        due: Due {
            result: Ok(done),
            counter: 1,
        },
    }
}

/// The station with its picture, where no panel stands on two patches: its count
/// is that of its patch.
pub fn shows(name: &str, scene: &Scene, view: View, rows: &str) -> Trial {
    let cells = counted(scene, &digits(rows));
    accepted(name, Call::new(scene.write(), view), rows, &cells)
}

/// The cells of each patch of such a scene, by the cells of a picture.
pub fn counted(scene: &Scene, picture: &[u16]) -> Vec<u32> {
    let counts = counts(picture);
    let records = scene.records.iter();
    records.map(|r| counts[usize::from(r.panel)]).collect()
}

pub fn refused(name: &str, call: Call, number: u32) -> Trial {
    Trial {
        name: name.to_string(),
        due: Due {
            result: Err(number),
            counter: call.counter,
        },
        call,
    }
}

/// As many differences as are shown one by one.
pub const SHOWN: usize = 20;

/// Trials, and how the numbers due in them read a sight line.
pub struct Suite {
    pub name: &'static str,
    pub sight: Sight,
    /// Are the trials, two by two, of one ring cut in two ways?
    pub cuttings: bool,
    /// Those of the trials whose tiles cover a window.
    pub groups: Vec<Group>,
    pub trials: Vec<Trial>,
}

impl Suite {
    /// What differs in the window of a group that trial k is the last of, as the
    /// trials so far left it.
    fn wholes_apart(&self, k: usize, left: &[Option<Lent>]) -> Vec<Difference> {
        let ended = self.groups.iter().filter(|g| g.places.last() == Some(&k));
        let apart = |group: &Group| {
            let own = group.places.iter();
            let piece = |&at: &usize| Some(Piece::left(&self.trials[at].call, left[at].as_ref()?));
            let pieces: Option<Vec<Piece>> = own.map(piece).collect();
            let whole = Whole::of(group.whole.size(), &pieces.unwrap_or_default());
            whole.apart(&group.whole.due)
        };
        ended.flat_map(apart).collect()
    }
}

fn suites() -> Reading<Vec<Suite>> {
    let told = |name, sight, trials| Suite {
        name,
        sight,
        cuttings: false,
        groups: Vec::new(),
        trials,
    };
    let mut all = vec![
        told("the turned stations", Sight::Beside, turned()),
        told("the booked stations", Sight::Beside, booking()),
        told("the joint stations", Sight::Beside, joints(Sight::Beside)),
        told("the joints before F-3", Sight::Plain, joints(Sight::Plain)),
        told("the stretch stations", Sight::Beside, stretches()),
        told("the cutting stations", Sight::Beside, rings()),
        told("the metre stations", Sight::Beside, metres()),
        told("the map stations", Sight::Beside, maps()),
        told("the tile stations", Sight::Beside, tile_stations()),
    ];
    let (trials, groups) = window_stations();
    all.push(Suite {
        groups,
        ..told("the window stations", Sight::Beside, trials)
    });
    all.extend(stored()?);
    Ok(all)
}

/// All of them on the model, which reads sight lines as each of them does;
/// gives how many fail.
pub fn hold_model() -> usize {
    each(|suite| {
        let model = |call: &Call| Due::by(suite.sight, call);
        hold(&suite, model)
    })
}

/// All of them on a library, which reads sight lines as F-3 does; gives how
/// many fail.
pub fn hold_library<L: Library>(library: impl Fn() -> L) -> usize {
    each(|mut suite| {
        let thin = brought_up(&mut suite);
        hold(&suite, |_: &Call| library()) + usize::from(thin)
    })
}

fn each(held: impl Fn(Suite) -> usize) -> usize {
    match suites() {
        Ok(all) => all.into_iter().map(held).sum(),
        Err(why) => {
            println!("FAILS {why}");
            1
        }
    }
}

/// What is due since F-3 of trials from before: what the trial says where no
/// number is read otherwise, and what the model makes of the call elsewhere.
/// Is there none of one sort? Then the trials say nothing of F-3.
fn brought_up(suite: &mut Suite) -> bool {
    if suite.sight == Sight::Beside {
        return false;
    }
    let mut changed = 0;
    for trial in &mut suite.trials {
        if is_read_otherwise(&trial.call) {
            changed += 1;
            trial.due = Due::of(&trial.call);
        }
    }
    let all = suite.trials.len();
    println!("cases: F-3 changes {changed} of {all} of {}", suite.name);
    changed == 0 || changed == all
}

/// Puts each trial to the library that is to answer its call, and says how
/// many agree; gives how many do not.
///
/// Of two cuttings the second is also held to what the library left of the
/// first, whatever is due for either, and of a group of tiles the last to what
/// all of them left together.
fn hold<L: Library>(suite: &Suite, library: impl Fn(&Call) -> L) -> usize {
    let Suite {
        name: of, trials, ..
    } = suite;
    let mut failed = 0;
    let mut first: Option<Lent> = None;
    let mut left: Vec<Option<Lent>> = Vec::new();
    for (k, trial) in trials.iter().enumerate() {
        let mut noise = Random::new(trials.len() as u64, k as u64);
        let asked = library(&trial.call);
        let outcome = check_due(&asked, &trial.call, &trial.due, &mut noise);
        let mut found = outcome.differences;
        first = match first {
            Some(first) => {
                found.extend(cuttings_apart(&first, &outcome.lent));
                None
            }
            None => suite.cuttings.then(|| outcome.lent.clone()),
        };
        left.push((outcome.number == 0).then_some(outcome.lent));
        found.extend(suite.wholes_apart(k, &left));
        if !found.is_empty() {
            failed += 1;
            if failed <= SHOWN {
                println!("DIFFERS {of}, {}: {found:?}", trial.name);
            }
        }
    }
    agreeing(of, trials.len(), failed)
}

/// Says how many of these cases agree; gives how many do not. None at all is a
/// fault as well.
pub fn agreeing(of: &str, all: usize, failed: usize) -> usize {
    println!("cases: {} of {of} agree", all - failed);
    if failed > 0 {
        println!("cases: {failed} of {of} differ");
    }
    failed + usize::from(all == 0)
}
