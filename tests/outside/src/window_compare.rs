//! Windows put to the library tile by tile, each tile lent its own buffers, and what
//! the tiles left put together.

use crate::call::{Call, Lent, Library};
use crate::compare::{check, check_by, note, noted_parts, panels_hold, Difference, Outcome};
use crate::pairs::{parts, Pictures};
use crate::random::Random;
use crate::ray::{closest, Holder, Sight};
use crate::scene::{patches_told, Patch, Scene};
use crate::survey::{booked, counts, holders, picture, some_lines, Done, Due};
use crate::whole::{Piece, Whole};
use crate::windows::Windows;

/// What came of a window.
pub struct WindowOutcome {
    /// Of each tile, in the order of asking.
    pub tiles: Vec<Outcome>,
    pub whole: Whole,
    /// What differs, in tiles or in the window.
    pub differences: Vec<Difference>,
}

/// One cell in so many of a window is worked out: all where that costs at most twice
/// the work.
fn step(whole: &Call, work: usize) -> usize {
    let cost = whole.view.cells() * patches_told(&whole.scene);
    match cost <= 2 * work {
        true => 1,
        false => cost / work,
    }
}

/// A window in the model: all its cells, or one in so many where they are many.
struct Model<'a> {
    whole: &'a Call,
    patches: Vec<Patch>,
    /// Who has each cell.
    all: Option<Vec<Holder>>,
    step: usize,
}

impl Model<'_> {
    fn of(whole: &Call, work: usize) -> Model<'_> {
        let patches = Scene::read(&whole.scene).patches();
        let step = step(whole, work);
        let all = (step == 1).then(|| holders(Sight::Beside, &patches, &whole.view, &whole.tile));
        Model {
            whole,
            patches,
            all,
            step,
        }
    }

    /// What is due for a call on a tile, cut out of the window.
    fn due(&self, call: &Call) -> Option<Due> {
        let (all, width) = (self.all.as_ref()?, usize::from(call.view.width));
        let places = call.tile.places();
        let own: Vec<Holder> = places.map(|[x, y]| all[y * width + x]).collect();
        let done = Done::of(&own, &self.patches, &call.tile);
        let counter = call.counter + u32::from(call.holds_last());
        let result = Ok(done);
        Some(Due { result, counter })
    }

    /// What is due for the window where the model has it; else what its own picture
    /// makes due.
    fn whole(&self, left: &Whole) -> Whole {
        let counter = self.whole.counter + 1;
        match &self.all {
            Some(all) => {
                let picture = picture(&self.patches, all);
                Whole {
                    counts: counts(&picture),
                    patch_counts: booked(all, self.patches.len()),
                    picture,
                    counter,
                }
            }
            None => Whole {
                counts: counts(&left.picture),
                counter,
                ..left.clone()
            },
        }
    }

    /// Is one cell in so many of the window its closest panel?
    fn is_closest(&self, left: &Whole) -> bool {
        let Call { view, tile, .. } = self.whole;
        let mut tried = some_lines(self.step, view, tile);
        tried.all(|(at, line)| closest(&self.patches, &line) == left.picture[at])
    }
}

/// A tile that the model does not paint: its numbers are those of its own picture,
/// whatever the buffers held before.
fn check_own(library: &dyn Library, call: &Call, rng: &mut Random) -> Outcome {
    let mut lent = Lent::noise(call, rng);
    library.survey(call, &mut lent);
    let known = lent.picture.iter().all(|&panel| panel <= 1_024);
    let picture = match known {
        true => lent.picture.to_vec(),
        false => vec![0; call.tile.cells()],
    };
    let done = Done::told(picture, lent.patch_counts.to_vec(), &call.tile);
    let due = Due {
        result: Ok(done),
        counter: call.counter + u32::from(call.holds_last()),
    };
    check_by(library, call, &due, rng)
}

/// Every tile of a window by its own call, the counter passed on as the library leaves
/// it.
fn put_tiles(
    library: &dyn Library,
    model: &Model,
    calls: &[Call],
    work: usize,
    rng: &mut Random,
) -> Vec<(Call, Outcome)> {
    let mut left = work;
    let mut counter = model.whole.counter;
    let mut all = Vec::new();
    for call in calls {
        let call = call.with(&|c| c.counter = counter);
        let cost = call.tile.cells() * model.patches.len();
        let outcome = match model.due(&call) {
            Some(due) => check_by(library, &call, &due, rng),
            None if cost <= left => {
                left -= cost;
                check(library, &call, rng)
            }
            None => check_own(library, &call, rng),
        };
        counter = outcome.lent.counter.min(u32::MAX - 1);
        all.push((call, outcome));
    }
    all
}

/// One window: its tiles, and what they give together.
pub fn check_window(
    library: &dyn Library,
    whole: &Call,
    calls: &[Call],
    work: usize,
    rng: &mut Random,
) -> WindowOutcome {
    let model = Model::of(whole, work);
    let put = put_tiles(library, &model, calls, work, rng);
    let pieces: Vec<Piece> = put
        .iter()
        .map(|(call, outcome)| Piece::left(call, &outcome.lent))
        .collect();
    let left = Whole::of([whole.view.width, whole.view.height], &pieces);
    let mut found: Vec<Difference> = put
        .iter()
        .flat_map(|(_, outcome)| outcome.differences.clone())
        .collect();
    let is_known = left.picture.iter().all(|&panel| panel <= 1_024);
    if is_known || model.all.is_some() {
        found.extend(left.apart(&model.whole(&left)));
    }
    let is_closest = model.all.is_some() || model.is_closest(&left);
    note(&mut found, !is_closest, Difference::WholePicture);
    let sums = panels_hold(&whole.scene, &left.counts, &left.patch_counts);
    note(&mut found, !sums, Difference::PanelSums);
    WindowOutcome {
        tiles: put.into_iter().map(|(_, outcome)| outcome).collect(),
        whole: left,
        differences: found,
    }
}

/// Both windows of a pair, and demand 3 on the whole pictures and the added counts:
/// "is wanted for whole windows too".
pub fn check_windows(
    library: &dyn Library,
    windows: &Windows,
    rng: &mut Random,
) -> [WindowOutcome; 2] {
    let Windows { pair, calls, work } = windows;
    let [first, mut second] = [(&pair.first, &calls[0]), (&pair.second, &calls[1])]
        .map(|(whole, calls)| check_window(library, whole, calls, *work, rng));
    let step = step(&pair.first, *work);
    let pictures = Pictures {
        first: &first.whole.picture,
        second: &second.whole.picture,
        counts: &first.whole.counts,
    };
    second
        .differences
        .extend(noted_parts(parts(pair, &pictures, step)));
    [first, second]
}
