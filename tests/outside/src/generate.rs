//! Random scenes with their trees, each from its seed alone.

use crate::boards;
use crate::call::{Call, View};
use crate::hinge;
use crate::loose::{Loose, Site};
use crate::random::Random;
use crate::scene::{Patch, NONE};
use crate::soup::{self, Corners};
use crate::tile::Tile;
use crate::tiles::placed;
use crate::tree::{any_plane, Branch, Planter};
use crate::view;
use crate::works;

#[derive(Clone, Copy, Debug, PartialEq, Eq)]
pub enum Kind {
    Tiny,
    Grid,
    Level,
    Medium,
    Far,
    Thin,
    Stack,
    Comb,
    Lining,
    Pieces,
    Joints,
    Boards,
    Empty,
}

pub const KINDS: [Kind; 13] = [
    Kind::Tiny,
    Kind::Grid,
    Kind::Level,
    Kind::Medium,
    Kind::Far,
    Kind::Thin,
    Kind::Stack,
    Kind::Comb,
    Kind::Lining,
    Kind::Pieces,
    Kind::Joints,
    Kind::Boards,
    Kind::Empty,
];

/// How much a case may cost: rays times patches, and patches.
#[derive(Clone, Copy)]
pub struct Size {
    pub work: usize,
    pub patches: usize,
}

pub const FULL: Size = Size {
    work: 100_000,
    patches: 1_024,
};

pub const SMALL: Size = Size {
    work: 2_000,
    patches: 40,
};

pub struct Made {
    pub loose: Loose,
    pub view: View,
    pub tile: Tile,
}

impl Made {
    /// The call on this scene or on another, of the same view and tile.
    pub fn call(&self, loose: &Loose) -> Call {
        Call::of_tile(loose.pack().write(), self.view, self.tile)
    }
}

/// A scene that the gate accepts, and a tile of a view of it.
pub fn make(rng: &mut Random, kind: Kind, size: Size) -> Made {
    let (mut patches, seen) = panelled(rng, kind, size);
    if patches.len() < 900 {
        patches = soup::repeated(rng, patches);
    }
    let chain = rng.once_in(if kind == Kind::Stack { 2 } else { 9 });
    let loose = match kind {
        Kind::Empty => bare(rng),
        _ => {
            let root = planted(rng, patches, chain);
            Loose::of(rng, root)
        }
    };
    let patch_count = loose.patches().len();
    let view = match seen {
        Some(view) if kind == Kind::Comb || view.cells() * patch_count <= 4 * size.work => view,
        _ => view::choose(rng, &loose.patches(), size.work),
    };
    let (view, tile) = placed(rng, view);
    Made { loose, view, tile }
}

/// Patches of the kind, and the view of it where it has one of its own.
fn panelled(rng: &mut Random, kind: Kind, size: Size) -> (Vec<Patch>, Option<View>) {
    match kind {
        Kind::Lining => {
            let (panels, view) = works::lining(rng, size.patches);
            (panels, Some(view))
        }
        Kind::Comb => {
            let (teeth, view) = works::comb(rng, size.work);
            (soup::numbered(rng, teeth), Some(view))
        }
        Kind::Pieces => {
            let (pieces, view) = works::pieces(rng, size.work);
            (pieces, Some(view))
        }
        Kind::Joints => {
            let (leaves, view) = hinge::hinged(rng);
            (soup::numbered(rng, leaves), Some(view))
        }
        Kind::Boards => {
            let (boards, view) = boards::boards(rng);
            (soup::numbered(rng, boards), Some(view))
        }
        Kind::Empty => (Vec::new(), None),
        _ => {
            let polygons = polygons(rng, kind, size);
            (soup::numbered(rng, polygons), None)
        }
    }
}

fn polygons(rng: &mut Random, kind: Kind, size: Size) -> Vec<Corners> {
    match kind {
        Kind::Grid => soup::grid(rng),
        Kind::Level => soup::level(rng),
        Kind::Medium => soup::medium(rng),
        Kind::Far => soup::far(rng),
        Kind::Thin => soup::thin(rng),
        Kind::Stack => works::stack(rng, size.patches),
        _ => soup::tiny(rng),
    }
}

fn planted(rng: &mut Random, patches: Vec<Patch>, chain: bool) -> Branch {
    let spare = (1_024 - patches.len()).min(rng.pick(&[0, 3, 40]));
    let mut planter = Planter {
        rng,
        planes: Vec::new(),
        discard: true,
        chain,
        spare,
    };
    planter.plant(patches).expect("a patch has a plane")
}

/// Nodes without any patch, up to 1,024, as a chain or at random; or none.
fn bare(rng: &mut Random) -> Loose {
    let wanted = rng.pick(&[0, 1, 2, 3, 12, 100, 1_024]);
    let reach = rng.pick(&[3, 300, 10_000]);
    let chain = rng.once_in(2);
    let mut loose = Loose::default();
    for own in 0..wanted {
        loose.sites.push(Site {
            points: any_plane(rng, reach),
            positive: NONE,
            negative: NONE,
            patches: Vec::new(),
        });
        let mut hung = own == 0;
        while !hung {
            let above = if chain { own - 1 } else { rng.below(own) };
            let slot = loose.child(above, rng.once_in(2));
            hung = *slot == NONE;
            if hung {
                *slot = own as u16;
            }
        }
    }
    loose
}

/// The same patches less those of the chosen panels: under another tree, or
/// under the same with the patches taken out.
pub fn second(rng: &mut Random, first: &Loose, chosen: &[u16]) -> Loose {
    let mut thinned = first.clone();
    for site in &mut thinned.sites {
        site.patches.retain(|p| !chosen.contains(&p.panel));
    }
    if rng.once_in(5) {
        return thinned;
    }
    let kept = thinned.patches();
    let mut planter = Planter {
        planes: first.sites.iter().map(|site| site.points).collect(),
        discard: false,
        chain: false,
        spare: 1_024 - kept.len(),
        rng: &mut *rng,
    };
    match planter.plant(kept) {
        Some(root) => Loose::of(rng, root),
        None => thinned,
    }
}
