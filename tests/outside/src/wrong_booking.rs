//! Painters of a right picture that book its cells wrongly.

use crate::call::View;
use crate::compare::Difference;
use crate::ray::{against, met, Holder, Sight};
use crate::scene::{Patch, Scene};
use crate::survey::{booked, holders};
use crate::tile::Tile;
use crate::walk::walk;
use crate::wrong_paint::{self, Cell};

/// What is painted when the table is written.
pub struct Painted<'a> {
    pub scene: &'a Scene,
    pub patches: &'a [Patch],
    pub view: View,
    pub tile: Tile,
    pub holders: &'a [Holder],
}

/// The table, by its own rule.
pub type Book = fn(&Painted) -> Vec<u32>;

/// The table alone is wrong, or does not add up to the panels' counts either.
const TABLE: &[Difference] = &[Difference::PatchCounts];
const SUMS: &[Difference] = &[Difference::PatchCounts, Difference::PanelSums];

pub const BOOKS: &[(&str, &[Difference], Book)] = &[
    ("a patch that stands twice booked twice", SUMS, |p| {
        let twins = |k: usize| (0..p.patches.len()).filter(move |&m| p.patches[m] == p.patches[k]);
        each_cell(p, |_, k| twins(k).collect())
    }),
    ("the later of two level patches", TABLE, |p| {
        each_cell(p, |cell, k| {
            let level = p.of_the_panel(cell, k).filter(|&m| p.is_level(cell, k, m));
            level.last().into_iter().collect()
        })
    }),
    ("the earliest of the panel, near or far", TABLE, |p| {
        each_cell(p, |cell, k| p.of_the_panel(cell, k).take(1).collect())
    }),
    ("cells met, hidden or not", SUMS, |p| {
        let all = |cell: Cell| (0..p.patches.len()).filter(move |&m| p.is_met(cell, m));
        each_cell(p, |cell, _| all(cell).collect())
    }),
    ("by the lines themselves, joints open", SUMS, |p| {
        let holders = holders(Sight::Plain, p.patches, &p.view, &p.tile);
        booked(&holders, p.patches.len())
    }),
    ("by panel: all on its first patch", TABLE, |p| {
        let is_own = |k: usize| move |other: &Patch| other.panel == p.patches[k].panel;
        each_cell(p, |_, k| {
            p.patches.iter().position(is_own(k)).into_iter().collect()
        })
    }),
    ("by panel: at the panel's number", SUMS, |p| {
        each_cell(p, |_, k| vec![usize::from(p.patches[k].panel) - 1])
    }),
    ("all on the first patch", SUMS, |p| {
        each_cell(p, |_, _| vec![0])
    }),
    ("by place in the walk", SUMS, |p| {
        let order = walk(p.scene, p.view.eye());
        each_cell(p, |_, k| place(&order, k).into_iter().collect())
    }),
    ("by place in the node's run", SUMS, |p| {
        let runs: Vec<_> = (0..p.scene.nodes.len())
            .map(|node| p.scene.run_of(node))
            .collect();
        each_cell(p, |_, k| {
            let own = runs.iter().filter(|run| run.contains(&k));
            own.map(|run| k - run.start).collect()
        })
    }),
    ("last patch of a full row not booked", SUMS, |p| {
        let order = walk(p.scene, p.view.eye());
        each_row(p, |row, k| match filler(row, &order) == Some(k) {
            true => 0,
            false => cells(row, k),
        })
    }),
    ("only the last row booked", SUMS, |p| {
        let lower = p.holders.len() - usize::from(p.tile.width);
        let holders = &p.holders[lower..];
        each_row(&Painted { holders, ..*p }, cells)
    }),
    ("a row's cells in eight bits", SUMS, |p| {
        each_row(p, |row, k| cells(row, k) % 256)
    }),
    ("one for each row", SUMS, |p| {
        each_row(p, |row, k| cells(row, k).min(1))
    }),
    ("only the first stretch of a span", SUMS, |p| {
        each_row(p, |row, k| stretches(row, k).first().copied().unwrap_or(0))
    }),
    ("only the last stretch of a span", SUMS, |p| {
        each_row(p, |row, k| stretches(row, k).last().copied().unwrap_or(0))
    }),
    ("a cell short in each stretch", SUMS, |p| {
        each_row(p, |row, k| stretches(row, k).iter().map(|n| n - 1).sum())
    }),
    ("from a span's first new cell to its last", SUMS, |p| {
        each_row(p, |row, k| {
            let new = |&at: &usize| row[at] == Some(k);
            let first = (0..row.len()).find(new);
            let last = (0..row.len()).rfind(new);
            first.zip(last).map_or(0, |(i, j)| (j + 1 - i) as u32)
        })
    }),
];

impl Painted<'_> {
    fn is_met(&self, cell: Cell, k: usize) -> bool {
        met(&self.patches[k], &cell.line())
    }

    fn is_level(&self, cell: Cell, k: usize, m: usize) -> bool {
        let pair = [k, m].map(|n| &self.patches[n]);
        against(pair, &cell.line()).is_eq()
    }

    /// The patches of the panel of patch k that the cell's line meets.
    fn of_the_panel(&self, cell: Cell, k: usize) -> impl Iterator<Item = usize> + '_ {
        let panel = self.patches[k].panel;
        let of_it = (0..self.patches.len()).filter(move |&m| self.patches[m].panel == panel);
        of_it.filter(move |&m| self.is_met(cell, m))
    }
}

/// Each lit cell goes to entries told from the patch that has it.
fn each_cell(p: &Painted, entries: impl Fn(Cell, usize) -> Vec<usize>) -> Vec<u32> {
    let mut table = vec![0; p.patches.len()];
    for (cell, holder) in wrong_paint::cells(p.view, p.tile).zip(p.holders) {
        for entry in holder.map_or(Vec::new(), |k| entries(cell, k)) {
            if let Some(own) = table.get_mut(entry) {
                *own += 1;
            }
        }
    }
    table
}

/// Each patch gets cells row by row.
fn each_row(p: &Painted, cells: impl Fn(&[Holder], usize) -> u32) -> Vec<u32> {
    let rows = || p.holders.chunks(usize::from(p.tile.width));
    let of_patch = |k: usize| rows().map(|row| cells(row, k)).sum();
    (0..p.patches.len()).map(of_patch).collect()
}

/// How many cells of the row patch k has.
fn cells(row: &[Holder], k: usize) -> u32 {
    row.iter().filter(|&&holder| holder == Some(k)).count() as u32
}

/// The lengths of the stretches of the row that patch k has.
fn stretches(row: &[Holder], k: usize) -> Vec<u32> {
    let parts = row.split(|&holder| holder != Some(k));
    let lengths = parts.map(|part| part.len() as u32);
    lengths.filter(|&length| length > 0).collect()
}

fn place(order: &[usize], k: usize) -> Option<usize> {
    order.iter().position(|&m| m == k)
}

/// The patch that lit the last unlit cells of a row, if all are lit.
fn filler(row: &[Holder], order: &[usize]) -> Holder {
    let all: Option<Vec<usize>> = row.iter().copied().collect();
    all?.into_iter().max_by_key(|&k| place(order, k))
}
