//! Gates that are right but for question 11.

use std::collections::BTreeSet;

use crate::call::{Call, COUNTS, ROW, WORDS};
use crate::fitting::{map_fits, table_fits, tile_lengths_fit};
use crate::gate::{Gate, Question};
use crate::scene::Scene;
use crate::wrong_gate::{asked, place, WrongGate};

pub const LENGTHS: &[WrongGate] = &[
    ("11: longer picture", || {
        asked(11, |c, s| {
            c.picture_len >= c.tile.cells() && counts_fit(c) && unlit_fits(c) && others_fit(c, s)
        })
    }),
    ("11: longer counts", || {
        asked(11, |c, s| {
            c.counts_len >= COUNTS && picture_fits(c) && unlit_fits(c) && others_fit(c, s)
        })
    }),
    ("11: longer unlit", || {
        asked(11, |c, s| {
            let rows = usize::from(c.tile.height);
            c.unlit_len >= rows * ROW && picture_fits(c) && counts_fit(c) && others_fit(c, s)
        })
    }),
    ("11: patch table unseen", || tabled(|_, _| true)),
    ("11: longer patch table", || {
        tabled(|c, s| c.patch_counts_len >= s.records.len())
    }),
    ("11: shorter patch table", || {
        tabled(|c, s| c.patch_counts_len <= s.records.len())
    }),
    ("11: patch table within 1,024", || {
        tabled(|c, _| c.patch_counts_len <= 1_024)
    }),
    ("11: patch table of 1,024 entries", || {
        tabled(|c, _| c.patch_counts_len == 1_024)
    }),
    ("11: patch table as long as the counts lent", || {
        tabled(|c, _| c.patch_counts_len == c.counts_len)
    }),
    ("11: counts as long as the patch table", || {
        asked(11, |c, s| {
            c.counts_len == s.records.len()
                && c.patch_counts_len == COUNTS
                && picture_fits(c)
                && unlit_fits(c)
                && map_fits(c, s)
        })
    }),
    ("11: patch table with an entry for nothing", || {
        tabled(|c, s| c.patch_counts_len == s.records.len() + 1)
    }),
    ("11: patch table of one entry at least", || {
        tabled(|c, s| c.patch_counts_len == s.records.len().max(1))
    }),
    ("11: one entry a node", || {
        tabled(|c, s| c.patch_counts_len == s.nodes.len())
    }),
    ("11: one entry a corner", || {
        tabled(|c, s| c.patch_counts_len == s.corners.len())
    }),
    ("11: one entry a panel", || {
        tabled(|c, s| c.patch_counts_len == panels(s))
    }),
    ("11: patch table in bytes", || {
        tabled(|c, s| c.patch_counts_len == 4 * s.records.len())
    }),
    ("11: patch table's length in 16 bits", || {
        tabled(|c, s| usize::from(c.patch_counts_len as u16) == s.records.len())
    }),
    ("11: patch table before all but 1 and 2", || apart(Some(3))),
    ("11: patch table before 10", || apart(Some(10))),
    ("11: patch table before 14", || apart(Some(14))),
    ("11: patch table after 12", || apart(None)),
];

/// Another length asked of the map.
pub const MAP_LENGTHS: &[WrongGate] = &[
    ("11: map unseen", || mapped(|_, _| true)),
    ("11: longer map", || mapped(|c, _| c.lit_len >= words(c))),
    ("11: shorter map", || mapped(|c, _| c.lit_len <= words(c))),
    ("11: words behind the map's last row", || {
        mapped(|c, _| c.lit_len / WORDS == usize::from(c.tile.height))
    }),
    ("11: a last row of the map begun", || {
        mapped(|c, _| c.lit_len.div_ceil(WORDS) == usize::from(c.tile.height))
    }),
    ("11: a map of whole rows", || {
        mapped(|c, _| c.lit_len % WORDS == 0)
    }),
    ("11: no empty map", || mapped(|c, _| c.lit_len > 0)),
    ("11: a map of four words", || {
        mapped(|c, _| c.lit_len == WORDS)
    }),
    ("11: a map for 128 rows", || {
        mapped(|c, _| c.lit_len == 128 * WORDS)
    }),
    ("11: a map within 128 rows", || {
        mapped(|c, _| c.lit_len <= 128 * WORDS)
    }),
    ("11: one word a row", || {
        mapped(|c, _| c.lit_len == usize::from(c.tile.height))
    }),
    ("11: as many words as the width needs", || {
        mapped(|c, _| {
            let needed = usize::from(c.tile.width).div_ceil(64);
            c.lit_len == needed * usize::from(c.tile.height)
        })
    }),
    ("11: four words a column", || {
        mapped(|c, _| c.lit_len == WORDS * usize::from(c.tile.width))
    }),
    ("11: a word a column", || {
        mapped(|c, _| c.lit_len == usize::from(c.tile.height) * ROW)
    }),
    ("11: map in bytes", || {
        mapped(|c, _| c.lit_len == 8 * words(c))
    }),
    ("11: map as long as the lists lent", || {
        mapped(|c, _| c.lit_len == c.unlit_len)
    }),
    ("11: map and lists exchanged", || {
        asked(11, |c, s| {
            let exchanged = c.with(&|c| std::mem::swap(&mut c.unlit_len, &mut c.lit_len));
            tile_lengths_fit(&exchanged) && others_fit(&exchanged, s)
        })
    }),
    ("11: map's length in eight bits", || {
        mapped(|c, _| c.lit_len == words(c) % 256)
    }),
    ("11: map's length in 16 bits", || {
        mapped(|c, _| usize::from(c.lit_len as u16) == words(c))
    }),
    ("11: map before all but 1 and 2", || map_apart(Some(3))),
    ("11: map before 10", || map_apart(Some(10))),
    ("11: map before 14", || map_apart(Some(14))),
    ("11: map after 12", || map_apart(None)),
];

/// Show only where the gate alone is asked: nobody lends so much.
pub const SHORT_LENGTHS: &[WrongGate] = &[
    ("11: lengths in 32 bits", || {
        asked(11, |c, s| {
            c.picture_len as u32 as usize == c.tile.cells()
                && c.counts_len as u32 as usize == COUNTS
                && c.patch_counts_len as u32 as usize == s.records.len()
                && c.unlit_len as u32 == u32::from(c.tile.height) * 256
                && c.lit_len as u32 as usize == words(c)
        })
    }),
    ("11: map's length in 32 bits", || {
        mapped(|c, _| c.lit_len as u32 as usize == words(c))
    }),
    ("11: patch table's length in 32 bits", || {
        tabled(|c, s| c.patch_counts_len as u32 as usize == s.records.len())
    }),
];

fn picture_fits(call: &Call) -> bool {
    call.picture_len == call.tile.cells()
}

fn counts_fit(call: &Call) -> bool {
    call.counts_len == COUNTS
}

fn unlit_fits(call: &Call) -> bool {
    call.unlit_len == usize::from(call.tile.height) * ROW
}

fn panels(scene: &Scene) -> usize {
    let panels = scene.records.iter().map(|record| record.panel);
    panels.collect::<BTreeSet<u16>>().len()
}

/// The map's right length.
fn words(call: &Call) -> usize {
    usize::from(call.tile.height) * WORDS
}

/// The lengths that came with later requests.
fn others_fit(call: &Call, scene: &Scene) -> bool {
    table_fits(call, scene) && map_fits(call, scene)
}

fn all_but_the_table(call: &Call, scene: &Scene) -> bool {
    tile_lengths_fit(call) && map_fits(call, scene)
}

fn all_but_the_map(call: &Call, scene: &Scene) -> bool {
    tile_lengths_fit(call) && table_fits(call, scene)
}

/// Question 11 with something else asked of the patch table.
fn tabled(question: Question) -> Gate {
    parted(all_but_the_table, Some(12), question)
}

/// The patch table's length asked in another place than the other lengths.
fn apart(before: Option<u32>) -> Gate {
    parted(all_but_the_table, before, table_fits)
}

/// Question 11 with something else asked of the map.
fn mapped(question: Question) -> Gate {
    parted(all_but_the_map, Some(12), question)
}

/// The map's length asked in another place than the other lengths.
fn map_apart(before: Option<u32>) -> Gate {
    parted(all_but_the_map, before, map_fits)
}

/// Question 11 in two parts, the second of them before another question or
/// after all.
fn parted(first: Question, before: Option<u32>, second: Question) -> Gate {
    let mut gate = asked(11, first);
    let at = match before {
        Some(number) => place(&gate, number),
        None => gate.questions.len(),
    };
    gate.questions.insert(at, (11, second));
    gate
}
