//! Writers that are right but for one thing: what an accepted call leaves in
//! the lent buffers, and what a refusal does.

use crate::call::{Lent, ROW};
use crate::compare::Difference;
use crate::survey::Done;

/// Spoils what a right call left, given what the buffers held before.
pub type Spoil = fn(&Done, &Lent, &mut Lent);

pub const SPOILS: &[(&str, Difference, Spoil)] = &[
    ("last cell left", Difference::Picture, |_, before, lent| {
        keep_last(&before.picture, &mut lent.picture)
    }),
    (
        "entry 0 of the counts not written",
        Difference::Counts,
        |_, before, lent| lent.counts[0] = before.counts[0],
    ),
    (
        "entry 1,024 not written",
        Difference::Counts,
        |_, before, lent| keep_last(&before.counts, &mut lent.counts),
    ),
    (
        "counts added to those before",
        Difference::Counts,
        |_, before, lent| add_to(&before.counts, &mut lent.counts),
    ),
    (
        "counts of panels not shown left",
        Difference::Counts,
        |_, before, lent| keep_unseen(&before.counts, &mut lent.counts),
    ),
    (
        "patches' cells added to those before",
        Difference::PatchCounts,
        |_, before, lent| add_to(&before.patch_counts, &mut lent.patch_counts),
    ),
    (
        "entries of patches not seen left",
        Difference::PatchCounts,
        |_, before, lent| keep_unseen(&before.patch_counts, &mut lent.patch_counts),
    ),
    (
        "last patch's entry not written",
        Difference::PatchCounts,
        |_, before, lent| keep_last(&before.patch_counts, &mut lent.patch_counts),
    ),
    (
        "patch table not written",
        Difference::PatchCounts,
        |_, before, lent| lent.patch_counts.copy_from_slice(&before.patch_counts),
    ),
    (
        "last row's stretches left",
        Difference::Unlit,
        |_, before, lent| {
            let from = lent.unlit.len() - ROW;
            lent.unlit[from..].copy_from_slice(&before.unlit[from..]);
        },
    ),
    ("unused pairs left", Difference::Unlit, |_, before, lent| {
        let pairs = lent.unlit.chunks_mut(2).zip(before.unlit.chunks(2));
        for (own, old) in pairs.filter(|(own, _)| own[1] == 0) {
            own.copy_from_slice(old);
        }
    }),
    ("touching stretches", Difference::Unlit, |_, _, lent| {
        for row in lent
            .unlit
            .chunks_mut(ROW)
            .filter(|row| row[1] > 1 && row[254] == 0)
        {
            row.copy_within(2..254, 4);
            (row[3], row[2]) = (row[1] - 1, row[0] + 1);
            row[1] = 1;
        }
    }),
    ("128th stretch lost", Difference::Unlit, |_, _, lent| {
        lent.unlit
            .chunks_mut(ROW)
            .for_each(|row| row[254..].fill(0))
    }),
    ("length in eight bits", Difference::Unlit, |_, _, lent| {
        lent.unlit.chunks_mut(2).for_each(|pair| pair[1] %= 256)
    }),
    ("offset and last column", Difference::Unlit, |_, _, lent| {
        let pairs = lent.unlit.chunks_mut(2).filter(|pair| pair[1] > 0);
        pairs.for_each(|pair| pair[1] += pair[0]);
    }),
    ("counter left", Difference::Counter, |_, before, lent| {
        lent.counter = before.counter
    }),
    ("counter from 0", Difference::Counter, |_, _, lent| {
        lent.counter = 1
    }),
];

fn keep_last<T: Copy>(before: &[T], lent: &mut [T]) {
    if let (Some(own), Some(old)) = (lent.last_mut(), before.last()) {
        *own = *old;
    }
}

fn add_to(before: &[u32], lent: &mut [u32]) {
    for (own, old) in lent.iter_mut().zip(before) {
        *own = own.wrapping_add(*old);
    }
}

/// Entries without cells are as they were lent.
fn keep_unseen(before: &[u32], lent: &mut [u32]) {
    for (own, old) in lent.iter_mut().zip(before) {
        *own = if *own == 0 { *old } else { *own };
    }
}

/// What a refusal leaves behind, by its number.
pub type Trace = fn(u32, &mut Lent);

pub const TRACES: &[(&str, Difference, Trace)] = &[
    ("picture cleared", Difference::TouchedPicture, |_, lent| {
        lent.picture.fill(0)
    }),
    ("counts cleared", Difference::TouchedCounts, |_, lent| {
        lent.counts.fill(0)
    }),
    (
        "patch table cleared",
        Difference::TouchedPatchCounts,
        |_, lent| lent.patch_counts.fill(0),
    ),
    (
        "one patch's entry touched",
        Difference::TouchedPatchCounts,
        |_, lent| {
            if let Some(entry) = lent.patch_counts.last_mut() {
                *entry = entry.wrapping_add(1);
            }
        },
    ),
    ("stretches cleared", Difference::TouchedUnlit, |_, lent| {
        lent.unlit.fill(0)
    }),
    ("counter raised", Difference::TouchedCounter, |_, lent| {
        lent.counter = lent.counter.wrapping_add(1)
    }),
    ("one cell touched", Difference::TouchedPicture, |_, lent| {
        if let Some(cell) = lent.picture.last_mut() {
            *cell = cell.wrapping_add(1);
        }
    }),
    (
        "15 clears the picture",
        Difference::TouchedPicture,
        |number, lent| {
            if number == 15 {
                lent.picture.fill(0)
            }
        },
    ),
    (
        "15 clears the counts",
        Difference::TouchedCounts,
        |number, lent| {
            if number == 15 {
                lent.counts.fill(0)
            }
        },
    ),
    (
        "15 clears the patch table",
        Difference::TouchedPatchCounts,
        |number, lent| {
            if number == 15 {
                lent.patch_counts.fill(0)
            }
        },
    ),
    (
        "15 clears the stretches",
        Difference::TouchedUnlit,
        |number, lent| {
            if number == 15 {
                lent.unlit.fill(0)
            }
        },
    ),
    (
        "15 raises the counter",
        Difference::TouchedCounter,
        |number, lent| {
            if number == 15 {
                lent.counter = lent.counter.wrapping_add(1)
            }
        },
    ),
];
