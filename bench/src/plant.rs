//! Trees over patches whose order is known.

use outside::scene::{Node, Patch, Record, Scene, NONE};
use outside::vector::{dot, minus, normal, wide, Point};

/// The patches in one plane, whose positive side is the near one.
pub struct Level {
    pub plane: [Point; 3],
    pub patches: Vec<Patch>,
}

#[derive(Default)]
pub struct Maker {
    scene: Scene,
}

impl Maker {
    /// Levels from near to far, halved again and again.
    pub fn balanced(levels: &[Level]) -> Scene {
        let mut maker = Maker::default();
        maker.halves(levels);
        maker.scene
    }

    /// Levels from near to far, each below the one before.
    pub fn chain(levels: &[Level]) -> Scene {
        let mut maker = Maker::default();
        maker.behind(levels);
        maker.scene
    }

    /// Rings of panels around a bore: joints halve the rings, and a ring is a
    /// chain, as each panel has the others on its inner side.
    pub fn rings(rings: &[Vec<Patch>]) -> Scene {
        let mut maker = Maker::default();
        let joint = |ring: &Vec<Patch>| across(ring[0].corners[0][1]);
        maker.parts(rings, joint, |maker, ring| maker.ring(ring));
        maker.scene
    }

    /// Wedges of the view from left to right, each with its levels from near to
    /// far. Planes through the eye, which is at 0, halve them, each along the left
    /// edge of a wedge's first patch, whose last corner is the one above its first.
    pub fn wedges(wedges: &[Vec<Level>]) -> Scene {
        let mut maker = Maker::default();
        let joint = |wedge: &Vec<Level>| {
            let corners = &wedge[0].patches[0].corners;
            [[0, 0, 0], corners[corners.len() - 1], corners[0]]
        };
        maker.parts(wedges, joint, |maker, wedge| maker.behind(wedge));
        maker.scene
    }

    /// A node without children; its patches follow those before.
    fn node(&mut self, points: [Point; 3], patches: &[Patch]) -> u16 {
        let scene = &mut self.scene;
        scene.nodes.push(Node {
            points,
            positive: NONE,
            negative: NONE,
            first: scene.records.len() as u16,
            count: patches.len() as u16,
        });
        for patch in patches {
            scene.records.push(Record {
                panel: patch.panel,
                first: scene.corners.len() as u16,
                count: patch.corners.len() as u16,
            });
            scene.corners.extend(&patch.corners);
        }
        scene.nodes.len() as u16 - 1
    }

    fn halves(&mut self, levels: &[Level]) -> u16 {
        if levels.is_empty() {
            return NONE;
        }
        let (near, rest) = levels.split_at(levels.len() / 2);
        let own = self.node(rest[0].plane, &rest[0].patches);
        let positive = self.halves(near);
        let negative = self.halves(&rest[1..]);
        self.hang(own, positive, negative)
    }

    fn behind(&mut self, levels: &[Level]) -> u16 {
        let Some((level, rest)) = levels.split_first() else {
            return NONE;
        };
        let own = self.node(level.plane, &level.patches);
        let negative = self.behind(rest);
        self.hang(own, NONE, negative)
    }

    /// Parts in a row, halved again and again by the plane before a part, which has
    /// the earlier ones on its positive side.
    fn parts<P>(
        &mut self,
        parts: &[P],
        before: fn(&P) -> [Point; 3],
        plant: fn(&mut Maker, &P) -> u16,
    ) -> u16 {
        if let [part] = parts {
            return plant(self, part);
        }
        let (first, rest) = parts.split_at(parts.len() / 2);
        let own = self.node(before(&rest[0]), &[]);
        let positive = self.parts(first, before, plant);
        let negative = self.parts(rest, before, plant);
        self.hang(own, positive, negative)
    }

    fn ring(&mut self, panels: &[Patch]) -> u16 {
        let Some((panel, rest)) = panels.split_first() else {
            return NONE;
        };
        let plane = plane_of(panel);
        let own = self.node(plane, std::slice::from_ref(panel));
        let inner = rest.last().is_some_and(|other| is_positive(&plane, other));
        let below = self.ring(rest);
        match inner {
            true => self.hang(own, below, NONE),
            false => self.hang(own, NONE, below),
        }
    }

    fn hang(&mut self, own: u16, positive: u16, negative: u16) -> u16 {
        let node = &mut self.scene.nodes[usize::from(own)];
        (node.positive, node.negative) = (positive, negative);
        own
    }
}

pub fn plane_of(patch: &Patch) -> [Point; 3] {
    [0, 1, 2].map(|k: usize| patch.corners[k])
}

/// The plane at y, its positive side the near one.
pub fn across(y: i16) -> [Point; 3] {
    [[0, y, 0], [1, y, 0], [0, y, 1]]
}

fn is_positive(plane: &[Point; 3], patch: &Patch) -> bool {
    let n = normal(plane[0], plane[1], plane[2]);
    let side = |&p: &Point| dot(minus(wide(p), wide(plane[0])), n);
    patch.corners.iter().map(side).sum::<i128>() > 0
}
