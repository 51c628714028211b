//! A scene before its nodes' runs are laid out.

use crate::random::Random;
use crate::scene::{Node, Patch, Record, Scene, NONE};
use crate::tree::{Branch, Plane, Tree};

/// A node with its patches at hand.
#[derive(Clone, Debug)]
pub struct Site {
    pub points: Plane,
    pub positive: u16,
    pub negative: u16,
    pub patches: Vec<Patch>,
}

/// The parent and the side on which a node hangs; the root hangs on none.
type Hook = Option<(usize, bool)>;

#[derive(Clone, Debug, Default)]
pub struct Loose {
    pub sites: Vec<Site>,
}

impl Loose {
    /// Numbers the nodes, parents first, in one of several orders.
    pub fn of(rng: &mut Random, root: Branch) -> Loose {
        let habit = rng.below(3);
        let mut loose = Loose::default();
        let mut waiting: Vec<(Box<Tree>, Hook)> = Vec::new();
        waiting.extend(root.map(|tree| (tree, None)));
        while !waiting.is_empty() {
            let at = match habit {
                0 => waiting.len() - 1,
                1 => 0,
                _ => rng.below(waiting.len()),
            };
            let (tree, parent) = waiting.remove(at);
            let own = loose.sites.len();
            if let Some((above, front)) = parent {
                *loose.child(above, front) = own as u16;
            }
            loose.sites.push(Site {
                points: tree.plane,
                positive: NONE,
                negative: NONE,
                patches: tree.patches,
            });
            let mut children = [(tree.positive, true), (tree.negative, false)];
            rng.shuffle(&mut children);
            for (child, front) in children {
                waiting.extend(child.map(|tree| (tree, Some((own, front)))));
            }
        }
        loose
    }

    pub fn child(&mut self, k: usize, front: bool) -> &mut u16 {
        match front {
            true => &mut self.sites[k].positive,
            false => &mut self.sites[k].negative,
        }
    }

    pub fn patches(&self) -> Vec<Patch> {
        let sites = self.sites.iter();
        sites.flat_map(|site| site.patches.clone()).collect()
    }

    /// Lays out the runs: they follow each other from 0.
    pub fn pack(&self) -> Scene {
        let mut scene = Scene::default();
        for site in &self.sites {
            scene.nodes.push(Node {
                points: site.points,
                positive: site.positive,
                negative: site.negative,
                first: scene.records.len() as u16,
                count: site.patches.len() as u16,
            });
            for patch in &site.patches {
                scene.records.push(Record {
                    panel: patch.panel,
                    first: scene.corners.len() as u16,
                    count: patch.corners.len() as u16,
                });
                scene.corners.extend(&patch.corners);
            }
        }
        scene
    }
}
