//! What the engine should answer: document 01's questions, and then csx.

use csx::primitives::{
    BoxShape, Curve, Cylinder, CylindricalShell, LinPoly, MultiBox, PointShape, PolyVertices,
    Polygon, Sphere, SphericalShell, Wire,
};
use csx::{CoordSystem, Primitive, Vec3};

use crate::engine::{Point, Shape};

/// What questions 9, 10 and 11 refuse with. Their place is 0.
pub const POINT_REFUSED: u64 = 9_000_000;
pub const NUMBER_REFUSED: u64 = 10_000_000;
pub const LIST_REFUSED: u64 = 11_000_000;

/// The most entries that question 11 lets pass.
pub const ENTRIES: usize = 4096;

/// The first refusal of a shape question, which asks 11, 10 and 9.
pub fn refusal(shape: &Shape, list: &[f64], point: Point) -> Option<u64> {
    let width = match shape {
        Shape::Polygon(..) | Shape::LinPoly(..) => Some(2),
        Shape::Wire(_) => Some(3),
        Shape::MultiBox => Some(6),
        _ => None,
    };
    if let Some(width) = width
        && (!list.len().is_multiple_of(width) || list.len() / width > ENTRIES)
    {
        return Some(LIST_REFUSED);
    }
    let mut shape = *shape;
    if !shape.numbers_mut().iter().all(|x| x.is_finite()) || !list.iter().all(|x| x.is_finite()) {
        return Some(NUMBER_REFUSED);
    }
    if !point.iter().all(|x| x.is_finite()) {
        return Some(POINT_REFUSED);
    }
    None
}

/// The shape as csx has it.
pub struct Csx {
    primitive: Primitive,
    system: CoordSystem,
}

impl Csx {
    /// Takes the whole entries of the list. A curve's may be followed by a
    /// part of one, which csx has no form for; no point is inside it anyway.
    pub fn new(shape: &Shape, list: &[f64], system: CoordSystem) -> Self {
        let primitive = match *shape {
            Shape::Box(a, b) | Shape::CylindricalBox(a, b) => BoxShape::new(a, b).into(),
            Shape::MultiBox => MultiBox::new(corners(list)).into(),
            Shape::Sphere(c, r) => Sphere::new(c, r).into(),
            Shape::SphericalShell(c, r, w) => SphericalShell::new(c, r, w).into(),
            Shape::Cylinder(a, b, r) => Cylinder::new(a, b, r).into(),
            Shape::CylindricalShell(a, b, r, w) => CylindricalShell::new(a, b, r, w).into(),
            Shape::Polygon(n, e) => Polygon::new(direction(n), e, vertices(list)).into(),
            Shape::LinPoly(n, e, l) => LinPoly::new(direction(n), e, l, vertices(list)).into(),
            Shape::Curve => Curve::new(points(list)).into(),
            Shape::Wire(r) => Wire::new(points(list), r).into(),
            Shape::Point(p) => PointShape::new(p).into(),
        };
        Self { primitive, system }
    }

    pub fn inside(&self, point: Point) -> bool {
        let point = Vec3(point);
        match self.system {
            CoordSystem::Cartesian => self.primitive.shape.contains_local(point, self.system),
            _ => self.primitive.contains_in(point, self.system, self.system),
        }
    }
}

fn corners(list: &[f64]) -> impl Iterator<Item = (Point, Point)> {
    let (boxes, _) = list.as_chunks();
    boxes
        .iter()
        .map(|&[ax, ay, az, bx, by, bz]| ([ax, ay, az], [bx, by, bz]))
}

fn vertices(list: &[f64]) -> PolyVertices {
    let (vertices, _) = list.as_chunks();
    vertices.iter().map(|&[u, v]| (u, v)).collect()
}

fn points(list: &[f64]) -> impl Iterator<Item = Point> {
    let (points, _) = list.as_chunks();
    points.iter().copied()
}

/// A direction that csx cannot hold is as good as any other that is no axis.
fn direction(n: u64) -> usize {
    usize::try_from(n).unwrap_or(usize::MAX)
}

#[cfg(test)]
mod tests {
    use super::*;

    const POLYGON: Shape = Shape::Polygon(7, 0.0);

    #[test]
    fn lists_are_asked_for_whole_entries_and_no_more_than_4096() {
        for (shape, width) in [
            (POLYGON, 2),
            (Shape::LinPoly(0, 0.0, 1.0), 2),
            (Shape::Wire(1.0), 3),
            (Shape::MultiBox, 6),
        ] {
            let asked = |length| refusal(&shape, &vec![1.0; length], [0.0; 3]);
            assert_eq!(asked(0), None);
            assert_eq!(asked(width), None);
            assert_eq!(asked(4096 * width), None);
            assert_eq!(asked(1), Some(11_000_000));
            assert_eq!(asked(4096 * width - 1), Some(11_000_000));
            assert_eq!(asked(4096 * width + 1), Some(11_000_000));
            assert_eq!(asked(4097 * width), Some(11_000_000));
        }
    }

    #[test]
    fn the_list_of_a_curve_is_asked_for_finite_numbers_only() {
        let asked = |list: &[f64]| refusal(&Shape::Curve, list, [0.0; 3]);
        assert_eq!(asked(&[1.0; 4]), None);
        assert_eq!(asked(&[1.0; 3 * 4097]), None);
        assert_eq!(asked(&[1.0, 1.0, 1.0, f64::INFINITY]), Some(10_000_000));
    }

    #[test]
    fn questions_are_asked_in_their_order() {
        let nan = f64::NAN;
        let (bad, good) = ([nan, 0.0, 0.0], [0.0; 3]);
        let flat = Shape::Polygon(2, nan);
        assert_eq!(refusal(&flat, &[nan], bad), Some(11_000_000));
        assert_eq!(refusal(&flat, &[], bad), Some(10_000_000));
        assert_eq!(refusal(&POLYGON, &[nan, 0.0], bad), Some(10_000_000));
        assert_eq!(refusal(&POLYGON, &[0.0, 0.0], bad), Some(9_000_000));
        assert_eq!(refusal(&POLYGON, &[0.0, 0.0], good), None);
    }

    #[test]
    fn each_number_of_a_shape_is_asked_about() {
        let mut shape = Shape::CylindricalShell([0.0; 3], [1.0; 3], 1.0, 1.0);
        for k in 0..8 {
            let mut wrong = shape;
            *wrong.numbers_mut()[k] = f64::NEG_INFINITY;
            assert_eq!(refusal(&wrong, &[], [0.0; 3]), Some(10_000_000));
        }
        assert_eq!(shape.numbers_mut().len(), 8);
        assert_eq!(refusal(&shape, &[], [0.0; 3]), None);
    }

    #[test]
    fn csx_is_asked_in_the_system_of_the_shape() {
        let (a, b) = ([0.5, -1.0, 0.0], [1.0, 1.0, 1.0]);
        let inside = |shape, system, p| Csx::new(&shape, &[], system).inside(p);
        // A turn further, the angle is the same. A coordinate is not.
        let p = [0.75, std::f64::consts::TAU, 0.5];
        assert!(inside(
            Shape::CylindricalBox(a, b),
            CoordSystem::Cylindrical,
            p
        ));
        assert!(!inside(Shape::Box(a, b), CoordSystem::Cartesian, p));
    }
}
