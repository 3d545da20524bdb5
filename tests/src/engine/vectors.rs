//! The C functions on csx's `Vec3` and `BoundingBox`, which only tests call.

use super::{Point, of_lists};

of_lists! {
    probe_vectors(given: f64, out: f64)
    probe_boxes(given: f64, out: f64)
}

/// Of vectors a and b and a number s: zero, the three unit vectors, -a, a / s, s * a,
/// a scaled to length 1, a + b and a - b.
pub type OfVectors = [Point; 10];

/// A box: its lower and its upper corner.
pub type Corners = [Point; 2];

/// Of boxes a and b and of points: the corners of the intersection of a and b, those of
/// the box of the points, then whether a and b intersect, whether they are equal and the
/// dimension of a as three numbers, and the eight corners of a.
pub type OfBoxes = [Point; 13];

/// What the engine works out of two vectors and a number.
pub fn vectors(a: Point, b: Point, s: f64) -> OfVectors {
    let mut given = [&a[..], &b, &[s]].concat();
    let mut out = OfVectors::default();
    assert_eq!(probe_vectors(&mut given, out.as_flattened_mut()), 1);
    out
}

/// What it works out of two boxes and of points, three numbers each.
pub fn boxes(a: Corners, b: Corners, points: &[f64]) -> OfBoxes {
    let mut given = [a.as_flattened(), b.as_flattened(), points].concat();
    let mut out = OfBoxes::default();
    assert_eq!(probe_boxes(&mut given, out.as_flattened_mut()), 1);
    out
}
