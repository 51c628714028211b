//! Front to back: spans are laid on the unlit stretches of their rows, and the
//! cells are counted as they are painted, patch by patch. What is left of the
//! stretches then gives the map.

use super::map;
use super::order::front_to_back;
use super::shapes::{Shape, Shapes};
use super::tables::{wide, Tables};
use outside::call::{Call, Lent, ROW, WORDS};

pub fn paint(tables: &Tables, call: &Call, lent: &mut Lent) {
    let order = front_to_back(tables, wide(call.view.eye()));
    let mut canvas = Canvas::blank(call, lent);
    let shapes = Shapes::of(tables, call, order.into_iter());
    for shape in &shapes.shapes {
        let painted = canvas.lay(&shapes, shape);
        canvas.book(shape, painted);
        if canvas.open == 0 {
            break;
        }
    }
    canvas.map(call.tile.width);
}

struct Canvas<'a> {
    lent: &'a mut Lent,
    width: usize,
    /// A bit for each row that is not full.
    open: u128,
    /// The used numbers of each row's list.
    used: [u16; 128],
}

impl Canvas<'_> {
    fn blank<'a>(call: &Call, lent: &'a mut Lent) -> Canvas<'a> {
        lent.picture.fill(0);
        lent.counts.fill(0);
        lent.counts[0] = call.tile.cells() as u32;
        lent.patch_counts.fill(0);
        lent.unlit.fill(0);
        for row in lent.unlit.chunks_exact_mut(ROW) {
            row[1] = call.tile.width;
        }
        Canvas {
            lent,
            width: usize::from(call.tile.width),
            open: u128::MAX >> (128 - u32::from(call.tile.height)),
            used: [2; 128],
        }
    }

    /// Gives the number of cells painted.
    fn lay(&mut self, shapes: &Shapes, shape: &Shape) -> u32 {
        let below = u128::MAX >> (128 - u32::from(shape.high));
        let mut rows = self.open & below & (u128::MAX << shape.low);
        let mut painted = 0;
        while rows != 0 {
            let row = rows.trailing_zeros() as usize;
            rows &= rows - 1;
            let (first, end) = shapes.span(shape, row);
            if first < end {
                painted += self.lay_span(row, first as u16, end as u16, shape.panel);
            }
        }
        painted
    }

    /// Writes the map, when nothing more is laid.
    fn map(&mut self, width: u16) {
        let full = map::full(width);
        let lists = self.lent.unlit.chunks_exact(ROW).zip(&self.used);
        let rows = self.lent.lit.chunks_exact_mut(WORDS);
        for (words, (list, &used)) in rows.zip(lists) {
            map::write(words, &full, &list[..usize::from(used)]);
        }
    }

    /// A patch is laid once, so that its cells are booked once for all its rows.
    fn book(&mut self, shape: &Shape, painted: u32) {
        self.lent.patch_counts[usize::from(shape.patch)] = painted;
        self.lent.counts[usize::from(shape.panel)] += painted;
        self.lent.counts[0] -= painted;
    }

    /// Gives the number of cells painted.
    fn lay_span(&mut self, row: usize, first: u16, end: u16, panel: u16) -> u32 {
        let list = &mut self.lent.unlit[row * ROW..][..ROW];
        let cells = &mut self.lent.picture[row * self.width..][..self.width];
        let mut used = usize::from(self.used[row]);
        let mut painted = 0;
        let mut k = first_after(&list[..used], first);
        while k < used && list[k] < end {
            let (min, max) = (list[k], list[k] + list[k + 1]);
            let (from, to) = (min.max(first), max.min(end));
            cells[usize::from(from)..usize::from(to)].fill(panel);
            painted += u32::from(to - from);
            k = keep(list, k, &mut used, [min, from, to, max]);
        }
        self.used[row] = used as u16;
        if used == 0 {
            self.open &= !(1 << row);
        }
        painted
    }
}

/// The place of the first stretch that ends after a column: halving a long list,
/// then one after the other.
fn first_after(list: &[u16], column: u16) -> usize {
    let (mut k, mut end) = (0, list.len());
    while end - k > 16 {
        let middle = k + (end - k) / 4 * 2;
        if list[middle] <= column {
            k = middle;
        } else {
            end = middle + 2;
        }
    }
    while k < list.len() && list[k] + list[k + 1] <= column {
        k += 2;
    }
    k
}

/// What is left of stretch k, min to max, once from to to is painted; gives the
/// place of the next stretch.
fn keep(list: &mut [u16], k: usize, used: &mut usize, [min, from, to, max]: [u16; 4]) -> usize {
    match (min < from, to < max) {
        (true, true) => {
            list.copy_within(k + 2..*used, k + 4);
            *used += 2;
            list[k + 1] = from - min;
            list[k + 2] = to;
            list[k + 3] = max - to;
            k + 4
        }
        (true, false) => {
            list[k + 1] = from - min;
            k + 2
        }
        (false, true) => {
            list[k] = to;
            list[k + 1] = max - to;
            k + 2
        }
        (false, false) => {
            list.copy_within(k + 2..*used, k);
            *used -= 2;
            list[*used] = 0;
            list[*used + 1] = 0;
            k
        }
    }
}
