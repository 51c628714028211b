//! The blocks of stored cases that tell calls. What a file does not know of is lent
//! so that nothing it tells changes.

use crate::block::{Block, Reading};
use crate::call::{Call, WORDS};
use crate::gate::STRUCK;
use crate::keys::{counts, lit_row, patch_counts, picture, unlit_row, view};
use crate::map::lit_map;
use crate::ray::Sight;
use crate::scene::patches_told;
use crate::survey::{self, survey_by, Done, Due};
use crate::tile_cases::tile_of;
use crate::trial::Trial;

/// The request that brought the patch table.
pub const PATCH_TABLE: u32 = 2;
/// The request by which a station may be in metres.
const METRES: u32 = 7;
/// The request that brought the lit map and the calls on its rows.
pub const LIT_MAP: u32 = 8;
/// The request by which a call draws a tile of its window.
pub const TILES: u32 = 9;

/// A file that knows of no patch table leaves its numbers to the model.
pub fn complete(trial: &mut Trial, sight: Sight) {
    if let (Ok(due), Ok(own)) = (&mut trial.due.result, survey_by(sight, &trial.call)) {
        due.patch_counts = own.patch_counts;
    }
}

/// "`pair`: two cuttings and one view". The file leaves the counters free: they
/// are the ends of what question 12 lets pass.
pub fn two_cuttings(block: &mut Block) -> Reading<[Trial; 2]> {
    let about = block.text("about")?;
    let scenes = [block.bytes("scene_a")?, block.bytes("scene_b")?];
    let view = view(block, false)?;
    if block.number::<u32>("answer")? != 0 {
        return Err(block.wrong("a cutting that is not accepted"));
    }
    let picture = picture(block, &view.whole())?;
    let counts = counts(block)?;
    let name = format!("{} {} ({about})", block.kind, block.number);
    let mut cutting = |letter: &str, scene: Vec<u8>, counter: u32| -> Reading<Trial> {
        let call = Call {
            counter,
            ..Call::new(scene, view)
        };
        let key = format!("patch_counts_{letter}");
        let table = patch_counts(block, &key, call.patch_counts_len)?;
        let rows = picture.chunks(usize::from(view.width).max(1));
        let result = Ok(Done {
            unlit: rows.flat_map(survey::unlit_row).collect(),
            lit: lit_map(&picture, view.width),
            picture: picture.clone(),
            counts: counts.clone(),
            patch_counts: table,
        });
        let counter = counter + 1;
        Ok(Trial {
            name: format!("{name}, scene {letter}"),
            call,
            due: Due { result, counter },
        })
    };
    let [a, b] = scenes;
    Ok([cutting("a", a, 0)?, cutting("b", b, u32::MAX - 1)?])
}

/// "`case`: one survey call", and the group of tiles that it belongs to.
pub fn survey_call(block: &mut Block, request: u32) -> Reading<(Option<u32>, Trial)> {
    let about = block.text("about")?;
    let group = match request >= TILES && block.is_next("group") {
        true => Some(block.number("group")?),
        false => None,
    };
    let call = call(block, request)?;
    let trial = Trial {
        name: format!("{} {} ({about})", block.kind, block.number),
        due: due(block, &call, request)?,
        call,
    };
    Ok((group, trial))
}

fn call(block: &mut Block, request: u32) -> Reading<Call> {
    let scene = block.bytes("scene")?;
    let view = view(block, request >= METRES)?;
    let tile = tile_of(block, &view, request >= TILES)?;
    Ok(Call {
        view,
        tile,
        picture_len: block.number("picture_len")?,
        counts_len: block.number("counts_len")?,
        patch_counts_len: match request < PATCH_TABLE {
            true => patches_told(&scene),
            false => block.number("patch_counts_len")?,
        },
        unlit_len: block.number("unlit_len")?,
        lit_len: match request < LIT_MAP {
            true => usize::from(tile.height) * WORDS,
            false => block.number("lit_len")?,
        },
        counter: block.number("counter")?,
        scene: scene.into_boxed_slice(),
    })
}

/// "Where the answer is not 0 only `counter_after` follows".
fn due(block: &mut Block, call: &Call, request: u32) -> Reading<Due> {
    let result = match block.number("answer")? {
        0 => Ok(done(block, call, request)?),
        STRUCK => return Err(block.wrong("a number that is struck")),
        number => Err(number),
    };
    Ok(Due {
        result,
        counter: block.number("counter_after")?,
    })
}

fn done(block: &mut Block, call: &Call, request: u32) -> Reading<Done> {
    let picture = picture(block, &call.tile)?;
    let counts = counts(block)?;
    let patch_counts = match request < PATCH_TABLE {
        true => vec![0; call.patch_counts_len],
        false => patch_counts(block, "patch_counts", call.patch_counts_len)?,
    };
    let mut unlit = Vec::new();
    for j in 0..usize::from(call.tile.height) {
        unlit.extend(unlit_row(block, j)?);
    }
    let lit = match request < LIT_MAP {
        true => lit_map(&picture, call.tile.width),
        false => lit_words(block, call)?,
    };
    Ok(Done {
        picture,
        counts,
        patch_counts,
        unlit,
        lit,
    })
}

/// The words of each row from the top.
fn lit_words(block: &mut Block, call: &Call) -> Reading<Vec<u64>> {
    let rows = 0..usize::from(call.tile.height);
    let words = rows.map(|j| lit_row(block, j));
    Ok(words.collect::<Reading<Vec<_>>>()?.concat())
}
