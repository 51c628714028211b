//! Planes and side numbers. Coordinates are within ±10,000, so a normal's parts
//! stay below 2^30 and side numbers below 2^46: i64 holds them, and so does f64.

use std::ops::{Add, Mul, Sub};

pub type Vector = [i64; 3];

/// Whole numbers as i64, or as f64 where many products of them are taken.
pub trait Number: Copy + Add<Output = Self> + Sub<Output = Self> + Mul<Output = Self> {}

impl Number for i64 {}
impl Number for f64 {}

pub fn minus<N: Number>(p: [N; 3], q: [N; 3]) -> [N; 3] {
    [p[0] - q[0], p[1] - q[1], p[2] - q[2]]
}

pub fn dot<N: Number>(p: [N; 3], q: [N; 3]) -> N {
    p[0] * q[0] + p[1] * q[1] + p[2] * q[2]
}

pub fn cross<N: Number>(p: [N; 3], q: [N; 3]) -> [N; 3] {
    [
        p[1] * q[2] - p[2] * q[1],
        p[2] * q[0] - p[0] * q[2],
        p[0] * q[1] - p[1] * q[0],
    ]
}

/// The points p with p · normal = level.
#[derive(Clone, Copy)]
pub struct Plane {
    pub normal: Vector,
    pub level: i64,
}

impl Plane {
    pub fn through(a: Vector, b: Vector, c: Vector) -> Plane {
        let normal = cross(minus(b, a), minus(c, a));
        Plane {
            normal,
            level: dot(a, normal),
        }
    }

    pub fn side(&self, p: Vector) -> i64 {
        dot(p, self.normal) - self.level
    }
}
