//! What came of a run: answers, what accepted pictures showed, differences.

use std::collections::{BTreeMap, BTreeSet};

use crate::axes::LEVEL;
use crate::beside::Beside;
use crate::call::{Call, Lent};
use crate::compare::{Difference, Outcome};
use crate::cuttings::Cuttings;
use crate::map_tally::MapsShown;
use crate::ray::Sight;
use crate::scene::Scene;
use crate::station_tally::{two_forms, StationTally, TWO_FORMS};
use crate::window_tally::{is_part, TilesShown, WindowTally, PART};

#[derive(Default)]
pub struct Tally {
    pub cases: u64,
    pub kinds: BTreeMap<String, u64>,
    /// How often the model gave each answer.
    pub answers: BTreeMap<u32, u64>,
    /// What accepted calls showed in a level view, and in a turned one.
    pub level: Shown,
    pub turned: Shown,
    pub pieces: Pieces,
    pub cuttings: CuttingsTally,
    pub stations: StationTally,
    pub maps: MapsShown,
    pub tiles: TilesShown,
    pub windows: WindowTally,
    pub differences: BTreeMap<Difference, u64>,
    pub failed: u64,
}

#[derive(Default)]
pub struct Shown {
    pub pictures: u64,
    pub cells: u64,
    pub lit: u64,
    pub beside: Beside,
}

/// In how many accepted pictures the patch table says more than the counts.
#[derive(Default)]
pub struct Pieces {
    /// A patch with cells stands in the list again.
    pub repeated: u64,
    /// Two patches of one panel and node have cells.
    pub in_a_node: u64,
    /// Patches of one panel have cells in two nodes.
    pub in_nodes: u64,
    /// A panel shows, and a patch of it does not.
    pub unseen: u64,
}

/// Two cuttings each: how many there were, and in how many of them the request
/// asks something of a library.
#[derive(Default)]
pub struct CuttingsTally {
    pub pairs: u64,
    /// Rings laid out in vain on the way to these.
    pub given_up: u64,
    /// "Patch counts may differ": the lists are not equally long, or the cells of
    /// equally long ones differ.
    pub patches: u64,
    pub patch_cells: u64,
    /// The pictures show something, and by the lines themselves, as before F-3,
    /// they would differ.
    pub lit: u64,
    pub plain: u64,
    /// Of these last, those of a level view.
    pub plain_level: u64,
    /// How many have their station in two forms, and how many in metres by other
    /// doubles.
    pub forms: [u64; 2],
    /// The tile is not the window.
    pub parts: u64,
}

impl Tally {
    /// An answer that is due.
    pub fn number(&mut self, number: u32, call: &Call) {
        *self.answers.entry(number).or_default() += 1;
        if number == 0 {
            self.tiles.add(call);
        }
        self.stations.add(call, number);
    }

    pub fn answer(&mut self, outcome: &Outcome, call: &Call) {
        self.number(outcome.number, call);
        if outcome.number == 0 {
            let shown = match call.view.axes == LEVEL {
                true => &mut self.level,
                false => &mut self.turned,
            };
            let cells = outcome.lent.picture.iter();
            shown.pictures += 1;
            shown.cells += call.tile.cells() as u64;
            shown.lit += cells.filter(|&&panel| panel != 0).count() as u64;
            let scene = Scene::read(&call.scene);
            shown.beside.add(&scene.patches(), call);
            self.pieces.add(&scene, &outcome.lent);
            self.maps.add(&outcome.lent.lit, call.tile.width);
        }
    }
}

impl Tally {
    /// What the pictures of a run should show, and these never did.
    pub fn never_shown(&self) -> Vec<String> {
        let pieces = self.pieces.told().into_iter();
        let pieces = pieces.map(|(times, name)| (times, name.to_string()));
        let beside = self.views().into_iter().flat_map(|(view, shown)| {
            let ways = shown.beside.told().into_iter();
            ways.map(move |(times, _, name)| (times, format!("{view}, cells {name}")))
        });
        let stations = self.stations.told();
        let never = pieces
            .chain(beside)
            .chain(stations)
            .chain(self.maps.told())
            .chain(self.tiles.told())
            .chain(self.windows.told())
            .filter(|(times, _)| *times == 0);
        never.map(|(_, name)| name).collect()
    }

    pub fn views(&self) -> [(&'static str, &Shown); 2] {
        [("level", &self.level), ("turned", &self.turned)]
    }
}

impl CuttingsTally {
    pub fn add(&mut self, pair: &Cuttings, lent: [&Lent; 2]) {
        let [one, other] = lent.map(|lent| &lent.patch_counts);
        let [plain, beyond] = pair.done(Sight::Plain);
        self.parts += u64::from(is_part(&pair.first));
        let unlike = one.len() != other.len();
        self.pairs += 1;
        self.given_up += pair.given_up;
        self.patches += u64::from(unlike);
        self.patch_cells += u64::from(!unlike && one != other);
        self.lit += u64::from(lent[0].picture.iter().any(|&panel| panel > 0));
        let differ = plain.picture != beyond.picture;
        self.plain += u64::from(differ);
        self.plain_level += u64::from(differ && pair.first.view.axes == LEVEL);
        for (own, new) in self.forms.iter_mut().zip(two_forms(pair.calls())) {
            *own += new;
        }
    }

    /// Each number with its name.
    pub fn told(&self) -> [(u64, &'static str); 8] {
        [
            (self.patches, "have lists of patches of two lengths"),
            (
                self.patch_cells,
                "have equally long lists, and cells booked otherwise",
            ),
            (self.lit, "show a panel"),
            (self.plain, "would differ by the sight lines themselves"),
            (self.plain_level, "would do so in a level view"),
            (self.forms[0], TWO_FORMS[0]),
            (self.forms[1], TWO_FORMS[1]),
            (self.parts, PART),
        ]
    }

    /// Is one of these never met with, in a run that is long enough?
    pub fn is_thin(&self) -> bool {
        self.pairs >= 300 && self.told().iter().any(|(times, _)| *times == 0)
    }
}

impl Pieces {
    fn add(&mut self, scene: &Scene, lent: &Lent) {
        let patches = scene.patches();
        let (seen, unseen): (Vec<usize>, Vec<usize>) =
            (0..patches.len()).partition(|&k| lent.patch_counts[k] > 0);
        let twins = |k: &usize| patches.iter().filter(|p| **p == patches[*k]).count();
        let panels: BTreeSet<u16> = seen.iter().map(|&k| patches[k].panel).collect();
        let nodes = 0..scene.nodes.len();
        let places: BTreeSet<(u16, usize)> = nodes
            .flat_map(|node| scene.run_of(node).map(move |k| (k, node)))
            .filter(|(k, _)| lent.patch_counts[*k] > 0)
            .map(|(k, node)| (patches[k].panel, node))
            .collect();
        let hidden = |k: &usize| panels.contains(&patches[*k].panel);
        self.repeated += u64::from(seen.iter().any(|k| twins(k) > 1));
        self.in_a_node += u64::from(places.len() < seen.len());
        self.in_nodes += u64::from(panels.len() < places.len());
        self.unseen += u64::from(unseen.iter().any(hidden));
    }

    /// Each number with its name.
    pub fn told(&self) -> [(u64, &'static str); 4] {
        [
            (self.repeated, "a patch that stands twice"),
            (self.in_a_node, "two pieces of a panel in one node"),
            (self.in_nodes, "pieces of a panel in several nodes"),
            (self.unseen, "a panel and an unseen piece of it"),
        ]
    }
}
