//! The blocks of stored cases that tell whole windows, and the groups of calls on
//! tiles that cover these.

use crate::block::{Block, Reading};
use crate::call::View;
use crate::cases::Said;
use crate::keys::{all_counts, counts, picture};
use crate::stations::window;
use crate::tile::Tile;
use crate::trial::Trial;
use crate::whole::{counter_passes, covers_once, Piece, Whole};

/// A window, and what is due of it.
#[derive(Clone)]
pub struct WholeCase {
    pub name: String,
    pub group: u32,
    pub tiles: usize,
    /// Width, height and lens.
    pub window: [u16; 3],
    pub due: Whole,
}

/// The trials of a list that cover a window once, by their places in the list.
pub struct Group {
    pub places: Vec<usize>,
    pub whole: WholeCase,
}

impl WholeCase {
    pub fn size(&self) -> [u16; 2] {
        [self.window[0], self.window[1]]
    }
}

/// "`whole`: the window that the tiles of a `group` cover once."
pub fn whole_case(block: &mut Block) -> Reading<WholeCase> {
    let about = block.text("about")?;
    let name = format!("{} {} ({about})", block.kind, block.number);
    let group = block.number("group")?;
    let tiles = block.number("tiles")?;
    let measures: [u16; 3] = block.numbers("window")?;
    let [width, height, lens] = measures;
    let tile = window(width, height, lens).whole();
    Ok(WholeCase {
        name,
        group,
        tiles,
        window: measures,
        due: Whole {
            picture: picture(block, &tile)?,
            counts: counts(block)?,
            patch_counts: all_counts(block, "patch_counts")?,
            counter: block.number("counter_after")?,
        },
    })
}

/// The tile of a call: the whole window in a file that knows of no tiles.
pub fn tile_of(block: &mut Block, view: &View, has_tiles: bool) -> Reading<Tile> {
    match has_tiles {
        true => block.numbers("tile").map(Tile::of),
        false => Ok(view.whole()),
    }
}

/// Is what the file says of a group true by itself? The calls are accepted, of one
/// scene, station, view and window, cover that once, and pass the counter on; put
/// together, what is due for them is what is due for the window.
fn group_holds(trials: &[&Trial], whole: &WholeCase) -> Reading<()> {
    let fails = |why: &str| Err(format!("{}: {why}", whole.name));
    let Some(first) = trials.first() else {
        return fails("no tile");
    };
    let [width, height, lens] = whole.window;
    let is_own = |trial: &&Trial| {
        let view = &trial.call.view;
        trial.call.scene == first.call.scene
            && *view == first.call.view
            && [view.width, view.height, view.lens] == [width, height, lens]
    };
    if trials.len() != whole.tiles || !trials.iter().all(is_own) {
        return fails("not so many tiles of one call");
    }
    let pieces: Vec<Piece> = trials.iter().filter_map(|trial| piece(trial)).collect();
    let tiles = pieces.iter().map(|piece| piece.tile);
    if !covers_once(whole.size(), tiles) {
        return fails("accepted tiles do not cover the window once");
    }
    if !counter_passes(&pieces) {
        return fails("the counter is not passed on");
    }
    match Whole::of(whole.size(), &pieces) == whole.due {
        true => Ok(()),
        false => fails("the tiles are due to give another picture, counts or counter"),
    }
}

/// What is due for an accepted call on a tile.
fn piece(trial: &Trial) -> Option<Piece<'_>> {
    let done = trial.due.result.as_ref().ok()?;
    Some(Piece::due(&trial.call, done, trial.due.counter))
}

/// The trials of one group, in the order of the file.
fn of_group(told: &[Said], group: u32) -> Vec<&Trial> {
    let trial = |said| match said {
        &Said::Tile(own, ref trial) if own == group => Some(trial),
        _ => None,
    };
    told.iter().filter_map(trial).collect()
}

/// Holds every group of a file to its window: no group has two, and no tile none.
pub fn groups_hold(told: &[Said]) -> Reading<()> {
    let mut wholes = Vec::new();
    for said in told {
        if let Said::Whole(whole) = said {
            wholes.push(whole);
        }
    }
    let tiles = told.iter().filter(|said| matches!(said, Said::Tile(..)));
    let wanted: usize = wholes.iter().map(|whole| whole.tiles).sum();
    if tiles.count() != wanted {
        return Err("not as many tiles as the windows have".to_string());
    }
    let mut wholes = wholes.into_iter();
    wholes.try_for_each(|whole| group_holds(&of_group(told, whole.group), whole))
}
