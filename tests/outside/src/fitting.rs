//! Question 11: the lengths lent.

use crate::call::{Call, COUNTS, ROW, WORDS};
use crate::scene::Scene;

/// 11: also "Question 11 covers the new table's length" and "Question 11 covers
/// the map's length."
pub fn lengths_fit(call: &Call, scene: &Scene) -> bool {
    tile_lengths_fit(call) && table_fits(call, scene) && map_fits(call, scene)
}

/// "Has the picture (u16) width × height cells, the counts (u32) 1,025, the
/// unlit lists (u16) height × 256?" Width and height are the tile's: "buffer
/// lengths follow the tile."
pub fn tile_lengths_fit(call: &Call) -> bool {
    call.picture_len == call.tile.cells()
        && call.counts_len == COUNTS
        && call.unlit_len == usize::from(call.tile.height) * ROW
}

/// "A further lent table (u32, one entry a patch)".
pub fn table_fits(call: &Call, scene: &Scene) -> bool {
    call.patch_counts_len == scene.records.len()
}

/// "four u64 words a row".
pub fn map_fits(call: &Call, _: &Scene) -> bool {
    call.lit_len == usize::from(call.tile.height) * WORDS
}
