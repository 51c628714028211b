//! The camera's three vectors.

use crate::vector::{cross, dot, plus, times, wide, Point, Vector};

/// "A view takes three vectors, right, forward and up".
#[derive(Clone, Copy, Debug, PartialEq, Eq)]
pub struct Axes {
    pub right: Point,
    pub forward: Point,
    pub up: Point,
}

/// "The old view is (1,0,0), (0,1,0), (0,0,1)".
pub const LEVEL: Axes = Axes {
    right: [1, 0, 0],
    forward: [0, 1, 0],
    up: [0, 0, 1],
};

impl Axes {
    pub fn of([right, forward, up]: [Point; 3]) -> Axes {
        Axes { right, forward, up }
    }

    pub fn vectors(&self) -> [Point; 3] {
        [self.right, self.forward, self.up]
    }

    /// Part k of the nine, in the order of a call.
    pub fn part(&mut self, k: usize) -> &mut i16 {
        match k / 3 {
            0 => &mut self.right[k % 3],
            1 => &mut self.forward[k % 3],
            _ => &mut self.up[k % 3],
        }
    }

    /// "right · (forward × up)".
    pub fn volume(&self) -> i128 {
        let [right, forward, up] = self.vectors().map(wide);
        dot(right, cross(forward, up))
    }

    /// So many times right plus so many times forward plus so many times up.
    pub fn sum(&self, [across, ahead, above]: Vector) -> Vector {
        let [right, forward, up] = self.vectors().map(wide);
        plus(
            plus(times(across, right), times(ahead, forward)),
            times(above, up),
        )
    }
}
