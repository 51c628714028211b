//! Libraries whose results depend on how a panel was cut. Each is seen by setting
//! its own two calls against each other, without the model.

use crate::compare::Difference;
use crate::map::lit_map;
use crate::ray::{against, met, Holder, Line};
use crate::scene::{Patch, Record, Scene};
use crate::survey::{unlit_row, Done};
use crate::vector::{cross, minus, wide};
use crate::wrong_booking::Painted;
use crate::wrong_paint::{Cell, Look};

/// What is written, given what is painted and what should be written of it.
pub type Write = fn(&Painted, Done) -> Done;

const PICTURE: &[Difference] = &[Difference::Picture];
const COUNTS: &[Difference] = &[Difference::Counts];
const UNLIT: &[Difference] = &[Difference::Unlit];
const LIT: &[Difference] = &[Difference::Lit];

pub const WRITES: &[(&str, &[Difference], Write)] = &[
    ("patches' numbers for panels'", PICTURE, |p, done| Done {
        picture: numbered(p.holders),
        ..done
    }),
    (
        "a cell of 0 where the next patch begins",
        PICTURE,
        |p, mut done| {
            let width = usize::from(p.tile.width);
            let rows = done.picture.chunks_mut(width);
            for (row, holders) in rows.zip(p.holders.chunks(width)) {
                let joints = (1..width).filter(|&i| holders[i] != holders[i - 1]);
                joints.for_each(|i| row[i] = 0);
            }
            done
        },
    ),
    ("a panel counted by its last patch", COUNTS, |p, done| {
        recounted(p, done, |_, cells| cells)
    }),
    (
        "a panel counted by its greatest patch",
        COUNTS,
        |p, done| recounted(p, done, u32::max),
    ),
    ("a panel counted by its patches seen", COUNTS, |p, done| {
        recounted(p, done, |patches, cells| patches + cells.min(1))
    }),
    ("cells of patch 0 in the unlit lists", UNLIT, |p, done| {
        let shown = numbered_from_0(p.holders);
        let rows = shown.chunks(usize::from(p.tile.width));
        Done {
            unlit: rows.flat_map(unlit_row).collect(),
            ..done
        }
    }),
    ("cells of patch 0 clear in the map", LIT, |p, done| Done {
        lit: lit_map(&numbered_from_0(p.holders), p.tile.width),
        ..done
    }),
];

/// Each cell's patch by its number, and 0 as well where there is none.
fn numbered_from_0(holders: &[Holder]) -> Vec<u16> {
    let number = |holder: &Holder| holder.unwrap_or(0) as u16;
    holders.iter().map(number).collect()
}

/// Each cell's patch by its number from 1 on, 0 where there is none.
fn numbered(holders: &[Holder]) -> Vec<u16> {
    let number = |holder: &Holder| holder.map_or(0, |k| k as u16 + 1);
    holders.iter().map(number).collect()
}

/// Panels' counts made of their patches' cells in another way than by adding.
fn recounted(p: &Painted, mut done: Done, with: fn(u32, u32) -> u32) -> Done {
    done.counts[1..].fill(0);
    for (patch, &cells) in p.patches.iter().zip(&done.patch_counts) {
        let entry = &mut done.counts[usize::from(patch.panel)];
        *entry = with(*entry, cells);
    }
    done
}

pub const CUT_LOOKS: &[(&str, Look)] = &[
    (
        "the earlier patch where level on the line itself",
        |s, c| {
            let (patches, line) = (s.patches(), c.line());
            let alone = Line::alone(line.eye, line.along[0]);
            let there = (0..patches.len()).filter(|&k| met(&patches[k], &line));
            there.min_by(|&k, &m| against([&patches[k], &patches[m]], &alone).then(k.cmp(&m)))
        },
    ),
    ("a panel's first patch alone", |s, c| {
        c.holder_among(s, |k, patch| {
            let own = |record: &Record| record.panel == patch.panel;
            s.records.iter().position(own) == Some(k)
        })
    }),
    ("a line through a corner meets nothing", |s, c| {
        among(s, c, |patch, line| !is_through_a_corner(patch, line))
    }),
    ("triangles left out", |s, c| {
        among(s, c, |patch, _| patch.corners.len() > 3)
    }),
];

/// Which of the patches that pass a test with the cell's line.
fn among(scene: &Scene, cell: Cell, test: impl Fn(&Patch, &Line) -> bool) -> Holder {
    let line = cell.line();
    cell.holder_among(scene, |_, patch| test(patch, &line))
}

fn is_through_a_corner(patch: &Patch, line: &Line) -> bool {
    let mut corners = patch.corners.iter();
    corners.any(|&p| cross(line.along[0], minus(wide(p), line.eye)) == [0; 3])
}

/// Faults of other lists that are seen so too.
pub const SEEN_TOO: &[&str] = &[
    "one face only",
    "edges tried to the last but one",
    "first stored is shown",
    "root's patches only",
    "both edges of a joint open",
    "both edges open, in a turned view",
    "only right looked at",
    "only up looked at",
    "an edge beside not turned by the eye's side",
];

/// Readings that are wrong and yet the same for every cutting: the model sees
/// them, and two cuttings must not. Edges that are all closed are among them: a
/// line meets a closed piece just where it meets the points covered.
pub const UNSEEN: &[&str] = &[
    "highest number where level",
    "blank",
    "both edges of a joint closed",
    "both edges closed, left of the centre",
    "always the level view",
    "down before right",
    "right taken away",
    "up added",
    "right taken away and up added",
    "distances on the line itself, level ones by panel",
];
