//! Whole-number vectors, all in i128, so that no range question arises.

/// A stored point: "Signed fields (i16)".
pub type Point = [i16; 3];

pub type Vector = [i128; 3];

pub fn wide(p: Point) -> Vector {
    p.map(i128::from)
}

/// Parts of points, differences and directions are below 2^20 and those of normals
/// below 2^42, so that products stay far inside: a test of each for its range would
/// take most of the time.
fn product(m: i128, n: i128) -> i128 {
    m.wrapping_mul(n)
}

pub fn plus(p: Vector, q: Vector) -> Vector {
    [p[0] + q[0], p[1] + q[1], p[2] + q[2]]
}

pub fn times(n: i128, p: Vector) -> Vector {
    p.map(|part| product(n, part))
}

pub fn minus(p: Vector, q: Vector) -> Vector {
    [p[0] - q[0], p[1] - q[1], p[2] - q[2]]
}

pub fn dot(p: Vector, q: Vector) -> i128 {
    product(p[0], q[0]) + product(p[1], q[1]) + product(p[2], q[2])
}

pub fn cross(p: Vector, q: Vector) -> Vector {
    [
        product(p[1], q[2]) - product(p[2], q[1]),
        product(p[2], q[0]) - product(p[0], q[2]),
        product(p[0], q[1]) - product(p[1], q[0]),
    ]
}

/// (b − a) × (c − a).
pub fn normal(a: Point, b: Point, c: Point) -> Vector {
    cross(minus(wide(b), wide(a)), minus(wide(c), wide(a)))
}

/// "For points a, b, c the side number of p is (p − a) · ((b − a) × (c − a))."
pub fn side(plane: &[Point; 3], p: Point) -> i128 {
    let [a, b, c] = *plane;
    dot(minus(wide(p), wide(a)), normal(a, b, c))
}
