//! Panels on lattices of planes, and one cutting after another of them: every
//! cutting covers the same points.

use crate::cut::{around, halves, holds, joined, spanned, straddles};
use crate::polygon::{dressed, point, Basis};
use crate::random::Random;
use crate::scene::Patch;
use crate::soup::Corners;
use crate::tree::Plane;
use crate::vector::{side, Point};

/// A convex part of a panel, or all of it.
pub struct Part {
    panel: u16,
    pub basis: Basis,
    corners: Corners,
    /// The lattice's points in it, its edges and corners counted in.
    pub lattice: Vec<Point>,
}

/// How far the lattices go.
pub const GRID: i64 = 4;

/// Up to seven parts: in one plane, where they touch, overlap and hide each
/// other, in parallel planes, or in planes that cross on a lattice line.
pub fn laid_out(rng: &mut Random) -> Vec<Part> {
    let fine = rng.pick(&[1, 2, 2, 4, 6, 6, 12, 12, 120, 450]);
    let panels = [0; 3].map(|_| any_panel(rng));
    let mut bases = vec![any_basis(rng, fine)];
    let mut parts: Vec<Part> = Vec::new();
    for _ in 0..1 + rng.below(7) {
        let basis = beside(rng, &bases, fine);
        bases.push(basis);
        let panel = rng.pick(&panels);
        parts.extend(Part::any(rng, panel, basis));
    }
    parts
}

fn any_panel(rng: &mut Random) -> u16 {
    let any = rng.between(1, 1_024);
    rng.pick(&[1, 2, 3, 5, 1_024, any]) as u16
}

/// All parts are multiples of one number, so that lines between lattice points
/// often cross at whole ones. Now and then the lattice is square to the axes.
fn any_basis(rng: &mut Random, fine: i64) -> Basis {
    let square = rng.once_in(3);
    let mut within = |most: i64| [0; 3].map(|_| fine * rng.between(-most, most));
    let mut basis = Basis {
        origin: within(6),
        u: within(2),
        v: within(2),
    };
    if square {
        let axis = rng.below(3);
        (basis.u, basis.v) = ([0; 3], [0; 3]);
        basis.u[axis] = fine;
        basis.v[(axis + 1) % 3] = fine * rng.pick(&[-1, 1, 2]);
    }
    basis
}

/// A basis that has something in common with one of those before.
fn beside(rng: &mut Random, bases: &[Basis], fine: i64) -> Basis {
    let base = rng.pick(bases);
    let mut step = || rng.pick(&[0, 0, -1, 1, 2]);
    let (s, t) = (step(), step());
    let other = any_basis(rng, fine);
    match rng.below(9) {
        0 => other,
        // In a parallel plane.
        1 => Basis {
            origin: [0, 1, 2].map(|k| base.origin[k] + other.u[k]),
            ..base
        },
        // Crossing on a lattice line.
        2..=4 => Basis {
            origin: base.at(s, t),
            u: base.u,
            v: other.v,
        },
        5 => Basis {
            origin: base.at(s, t),
            u: other.u,
            v: base.v,
        },
        _ => Basis {
            origin: base.at(s, t),
            ..base
        },
    }
}

impl Part {
    /// A parallelogram or the hull of some lattice points. None where it has no
    /// area or leaves the range.
    fn any(rng: &mut Random, panel: u16, basis: Basis) -> Option<Part> {
        let mut ends = || {
            let any = [rng.between(0, GRID), rng.between(0, GRID)];
            rng.pick(&[[0, GRID], [0, 2], any])
        };
        let ([a, b], [c, d]) = (ends(), ends());
        let mut places = vec![[a, c], [b, c], [b, d], [a, d]];
        if rng.once_in(2) {
            let any = |_| [0; 2].map(|_| rng.between(0, GRID));
            places = (0..7).map(any).collect();
            places.truncate(3 + rng.below(5));
        }
        let whole = |[s, t]: [i64; 2]| point(basis.at(s, t));
        let points: Option<Corners> = places.into_iter().map(whole).collect();
        let n = basis.normal();
        let corners = spanned(points?, n).filter(|_| n != [0; 3])?;
        let lattice = (0..=GRID).flat_map(|s| (0..=GRID).map(move |t| [s, t]));
        let lattice = lattice.filter_map(whole);
        Some(Part {
            panel,
            basis,
            lattice: lattice.filter(|&p| holds(&corners, p)).collect(),
            corners,
        })
    }

    pub fn holds(&self, p: Point) -> bool {
        holds(&self.corners, p)
    }

    /// Square to the part, nearly, through two of its lattice points.
    fn any_line(&self, rng: &mut Random) -> Option<Plane> {
        let [p, q] = [rng.pick(&self.lattice), rng.pick(&self.lattice)];
        let n = self.basis.normal();
        let axis = (0..3).max_by_key(|&k| n[k].abs()).unwrap_or(0);
        let mut off = p;
        off[axis] += 1;
        (p != q).then_some([p, q, off])
    }

    /// The hull of what is given and a lattice point, or of lattice points alone.
    fn overlapping(&self, rng: &mut Random, mut points: Corners) -> Option<Corners> {
        let wanted = points.len() + 1;
        points.push(rng.pick(&self.lattice));
        while points.len() < wanted.max(4) {
            points.push(rng.pick(&self.lattice));
        }
        spanned(points, self.basis.normal())
    }

    /// The pieces after some cuts.
    fn cut_up(&self, rng: &mut Random) -> Vec<Corners> {
        let mut pieces = vec![self.corners.clone()];
        for _ in 0..rng.below(9) {
            if pieces.len() < 12 {
                self.cut_on(rng, &mut pieces);
            }
        }
        pieces
    }

    /// One cut more, or pieces put together, or one that overlaps others.
    fn cut_on(&self, rng: &mut Random, pieces: &mut Vec<Corners>) {
        let at = rng.below(pieces.len());
        match rng.below(9) {
            0 | 1 => {
                if let Some(line) = self.any_line(rng) {
                    let all = pieces.iter().flat_map(|piece| cut_at(piece, &line));
                    *pieces = all.collect();
                }
            }
            2 => {
                if let Some(line) = self.any_line(rng) {
                    let piece = pieces.swap_remove(at);
                    pieces.extend(cut_at(&piece, &line));
                }
            }
            3 | 4 => {
                let piece = pieces.swap_remove(at);
                let mut inside = self.lattice.clone();
                inside.retain(|&p| holds(&piece, p));
                inside.push(piece[0]);
                pieces.extend(around(&piece, rng.pick(&inside)));
            }
            5 | 6 => join_two(rng, pieces),
            7 => {
                let piece = pieces[at].clone();
                pieces[at] = self.overlapping(rng, piece.clone()).unwrap_or(piece);
            }
            _ => pieces.extend(self.overlapping(rng, Vec::new())),
        }
    }
}

fn cut_at(piece: &Corners, line: &Plane) -> Vec<Corners> {
    let parts = straddles(piece, line).then(|| halves(piece, line));
    let whole = || vec![piece.clone()];
    parts.flatten().map_or_else(whole, |parts| parts.to_vec())
}

/// The first two pieces that can be joined, from a place on.
fn join_two(rng: &mut Random, pieces: &mut Vec<Corners>) {
    rng.shuffle(pieces);
    let count = pieces.len();
    let pairs = (0..count).flat_map(|k| (k + 1..count).map(move |m| [k, m]));
    let join = |[k, m]: [usize; 2]| Some(([k, m], joined([&pieces[k], &pieces[m]])?));
    let found = pairs.filter_map(join).next();
    if let Some(([k, m], whole)) = found {
        pieces.swap_remove(m);
        pieces[k] = whole;
    }
}

/// A cutting of all parts: pieces of one panel may be joined across its parts,
/// some stand again, and each is listed from any corner, either way round.
pub fn cutting(rng: &mut Random, parts: &[Part]) -> Vec<Patch> {
    let mut patches = Vec::new();
    let mut left: Vec<&Part> = parts.iter().collect();
    while let Some(first) = left.pop() {
        let (alike, others): (Vec<&Part>, Vec<&Part>) =
            left.into_iter().partition(|part| is_one_panel(first, part));
        left = others;
        let mut pieces = first.cut_up(rng);
        for part in alike {
            pieces.extend(part.cut_up(rng));
        }
        for _ in 0..rng.below(3) {
            join_two(rng, &mut pieces);
        }
        while rng.once_in(4) {
            pieces.push(rng.pick(&pieces));
        }
        let panel = first.panel;
        let listed = pieces.into_iter().filter_map(|piece| dressed(rng, piece));
        patches.extend(listed.map(|corners| Patch { panel, corners }));
    }
    rng.shuffle(&mut patches);
    patches
}

/// Are they parts of one panel in one plane?
fn is_one_panel(one: &Part, other: &Part) -> bool {
    let plane = [one.corners[0], one.corners[1], one.corners[2]];
    let mut corners = other.corners.iter();
    one.panel == other.panel && corners.all(|&p| side(&plane, p) == 0)
}
