//! Painters that are right but for one thing.

use std::cmp::Ordering;

use crate::call::{Call, View};
use crate::gate::patch_normal;
use crate::ray::{against, edges, eye_to_corner, holder, met, Holder, Line, Sight};
use crate::scene::{Patch, Scene};
use crate::tile::Tile;
use crate::vector::dot;

/// A cell of a window, from which one ray looks: its column and row there, and the
/// tile that it is painted for.
#[derive(Clone, Copy)]
pub struct Cell {
    pub view: View,
    pub tile: Tile,
    pub i: usize,
    pub j: usize,
}

impl Cell {
    pub fn line(&self) -> Line {
        Line::of(Sight::Beside, &self.view, self.i, self.j)
    }

    /// Is the cell left of the window's centre?
    pub fn is_left(&self) -> bool {
        2 * self.i + 1 < usize::from(self.view.width)
    }

    /// Which of these patches has the cell in the model.
    pub fn holder(&self, patches: &[Patch]) -> Holder {
        holder(patches, &self.line())
    }

    /// Which of the scene's patches that pass a test; the others keep their
    /// numbers.
    pub fn holder_among(&self, scene: &Scene, test: impl Fn(usize, &Patch) -> bool) -> Holder {
        let patches = scene.patches();
        let kept = (0..patches.len()).filter(|&k| test(k, &patches[k]));
        let (numbers, few): (Vec<usize>, Vec<Patch>) =
            kept.map(|k| (k, patches[k].clone())).unzip();
        self.holder(&few).map(|k| numbers[k])
    }
}

/// Which patch a cell shows, by its own rule.
pub type Look = fn(&Scene, Cell) -> Holder;

pub const LOOKS: &[(&str, Look)] = &[
    ("sign alone: mirrored and level patches", |s, c| {
        by(s, c, one_sign, exact)
    }),
    ("one face only", |s, c| by(s, c, faced, exact)),
    ("edges tried to the last but one", |s, c| {
        by(s, c, all_but_one, exact)
    }),
    ("distance in whole numbers", |s, c| {
        by(s, c, met, |a, b| (a.0 / a.1).cmp(&(b.0 / b.1)))
    }),
    ("distance compared in 64 bits", |s, c| {
        by(s, c, met, |a, b| {
            let [one, two] = [a.0 * b.1, b.0 * a.1].map(|n| n as i64);
            one.cmp(&two)
        })
    }),
    ("edges in 32 bits", |s, c| by(s, c, met_in_32_bits, exact)),
    ("distance in single precision", |s, c| by(s, c, met, single)),
    ("highest number where level", |s, c| {
        let mut all = s.patches();
        all.iter_mut().for_each(|p| p.panel = 2_000 - p.panel);
        c.holder(&all)
    }),
    ("first stored is shown", |s, c| {
        let (all, line) = (s.patches(), c.line());
        all.iter().position(|p| met(p, &line))
    }),
    ("root's patches only", |s, c| {
        c.holder_among(s, |k, _| s.run_of(0).contains(&k))
    }),
    ("every eighth corner forgotten", |s, c| {
        let mut all = s.patches();
        all.iter_mut().for_each(|p| p.corners.truncate(7));
        c.holder(&all)
    }),
    ("panel 1,024 shown as 0", |s, c| {
        let shown = c.holder(&s.patches());
        shown.filter(|&k| s.records[k].panel != 1_024)
    }),
    ("blank", |_, _| None),
];

/// A distance: two numbers of one sign, without it.
type Over = (i128, i128);
type Meets = fn(&Patch, &Line) -> bool;

fn over(patch: &Patch, line: &Line) -> Over {
    let under = dot(line.along[0], patch_normal(patch));
    (eye_to_corner(patch, line.eye).abs(), under.abs())
}

/// The closest patch with another rule of meeting or of distance. Patches that
/// are level on the line itself are told apart beside it, as they should be.
pub fn by(scene: &Scene, cell: Cell, meets: Meets, rule: fn(Over, Over) -> Ordering) -> Holder {
    let (patches, line) = (scene.patches(), cell.line());
    let is_there = |p: &Patch| over(p, &line).1 > 0 && meets(p, &line);
    let there = (0..patches.len()).filter(|&k| is_there(&patches[k]));
    there.min_by(|&k, &m| {
        let pair = [&patches[k], &patches[m]];
        let [a, b] = pair.map(|patch| over(patch, &line));
        let order = match exact(a, b) {
            Ordering::Equal => against(pair, &line),
            _ => rule(a, b),
        };
        order.then((pair[0].panel, k).cmp(&(pair[1].panel, m)))
    })
}

pub fn exact(a: Over, b: Over) -> Ordering {
    (a.0 * b.1).cmp(&(b.0 * a.1))
}

fn single(a: Over, b: Over) -> Ordering {
    let [one, two] = [a, b].map(|f| f.0 as f32 / f.1 as f32);
    one.total_cmp(&two)
}

fn met_in_32_bits(patch: &Patch, line: &Line) -> bool {
    let sign = eye_to_corner(patch, line.eye).signum();
    sign != 0
        && edges(patch, line.eye).all(|edge| {
            let short = line.along.map(|part| dot(part, edge) as i32);
            let first = short.into_iter().find(|&n| n != 0);
            first.map_or(0, |n| i128::from(n.signum())) == sign
        })
}

fn one_sign(patch: &Patch, line: &Line) -> bool {
    let signs: Vec<i128> = edges(patch, line.eye).map(|e| line.sign(e)).collect();
    signs[0] != 0 && signs.iter().all(|&sign| sign == signs[0])
}

fn faced(patch: &Patch, line: &Line) -> bool {
    eye_to_corner(patch, line.eye) < 0 && met(patch, line)
}

fn all_but_one(patch: &Patch, line: &Line) -> bool {
    let sign = eye_to_corner(patch, line.eye).signum();
    let mut few = edges(patch, line.eye).take(patch.corners.len() - 1);
    let forward = line.sign(patch_normal(patch)) == sign;
    sign != 0 && forward && few.all(|edge| line.sign(edge) == sign)
}

/// The cells of a call's tile.
pub fn cells(view: View, tile: Tile) -> impl Iterator<Item = Cell> {
    let cell = move |[i, j]: [usize; 2]| Cell { view, tile, i, j };
    tile.places().map(cell)
}

/// What they show, as one way of looking gives it.
pub fn painted(scene: &Scene, call: &Call, look: Look) -> Vec<Holder> {
    let cells = cells(call.view, call.tile);
    cells.map(|cell| look(scene, cell)).collect()
}
