//! The rest of the results from a picture of shapes, run by run. Cells hold the
//! numbers of shapes until then, so that patches of one panel are told apart
//! without a second buffer.

use super::map;
use super::shapes::{Shapes, NOTHING};
use outside::call::{Lent, ROW, WORDS};

pub fn finish(shapes: &Shapes, lent: &mut Lent) {
    let mut seen = Seen::none(shapes);
    let width = shapes.camera.tile.width;
    let full = map::full(width);
    let rows = lent.picture.chunks_exact_mut(usize::from(width));
    let beside = lent.unlit.chunks_exact_mut(ROW);
    let beside = beside.zip(lent.lit.chunks_exact_mut(WORDS));
    for (cells, (list, words)) in rows.zip(beside) {
        let used = seen.finish_row(cells, list);
        list[used..].fill(0);
        map::write(words, &full, &list[..used]);
    }
    seen.count(shapes, lent);
}

/// By number, that of nothing too: the panel, and how many cells show it.
struct Seen {
    panels: Vec<u16>,
    cells: Vec<u32>,
}

impl Seen {
    fn none(shapes: &Shapes) -> Seen {
        let mut panels = vec![0; shapes.shapes.len() + 1];
        for (number, shape) in shapes.numbered() {
            panels[usize::from(number)] = shape.panel;
        }
        Seen {
            cells: vec![0; panels.len()],
            panels,
        }
    }

    /// Gives the part of the list that is used.
    fn finish_row(&mut self, cells: &mut [u16], list: &mut [u16]) -> usize {
        let (mut used, mut i) = (0, 0);
        while i < cells.len() {
            let number = cells[i];
            let panel = self.panels[usize::from(number)];
            let start = i;
            while i < cells.len() && cells[i] == number {
                cells[i] = panel;
                i += 1;
            }
            self.cells[usize::from(number)] += (i - start) as u32;
            if number == NOTHING {
                list[used] = start as u16;
                list[used + 1] = (i - start) as u16;
                used += 2;
            }
        }
        used
    }

    /// A panel's count is the sum over its patches.
    fn count(&self, shapes: &Shapes, lent: &mut Lent) {
        lent.counts.fill(0);
        lent.counts[0] = self.cells[usize::from(NOTHING)];
        lent.patch_counts.fill(0);
        for (number, shape) in shapes.numbered() {
            let cells = self.cells[usize::from(number)];
            lent.patch_counts[usize::from(shape.patch)] = cells;
            lent.counts[usize::from(shape.panel)] += cells;
        }
    }
}
