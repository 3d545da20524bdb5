//! Document 01's own cases on shapes: the rows of its table 'Edges of the
//! rules', and its unit square.

use csx::CoordSystem;

use super::expected::Csx;
use super::{Answer, Asker, Engine, INSIDE, Lent, Line, OUTSIDE, question};
use crate::engine::{Point, Shape};
use crate::report::{Kind, Report};

/// A shape, the list lent for it, a point, and document 01's answer.
type Edge = (Shape, &'static [f64], Point, u64);

const UNIT_BOX: Shape = Shape::Box([0.0; 3], [1.0; 3]);
const UNIT_BOX_TURNED: Shape = Shape::Box([1.0; 3], [0.0; 3]);
const PAST: f64 = 1.0 + 1e-11;
const SQUARE: &[f64] = &[0.0, 0.0, 1.0, 0.0, 1.0, 1.0, 0.0, 1.0];
/// From 0 to 1 along the first axis of a plane, and to 2 along the second.
const UPRIGHT: &[f64] = &[0.0, 0.0, 1.0, 0.0, 1.0, 2.0, 0.0, 2.0];
const CENTRE: Point = [1.0, 2.0, 3.0];

const EDGES: [Edge; 25] = [
    // 1 in range 0..1, and 1..0
    (UNIT_BOX, &[], [1.0, 0.5, 0.5], INSIDE),
    (UNIT_BOX, &[], [0.5, 1.0, 0.5], INSIDE),
    (UNIT_BOX, &[], [0.5, 0.5, 1.0], INSIDE),
    (UNIT_BOX_TURNED, &[], [1.0, 0.5, 0.5], INSIDE),
    (UNIT_BOX_TURNED, &[], [0.5, 1.0, 0.5], INSIDE),
    (UNIT_BOX_TURNED, &[], [0.5, 0.5, 1.0], INSIDE),
    // 1 + 1e-11 in range 0..1
    (UNIT_BOX, &[], [PAST, 0.5, 0.5], OUTSIDE),
    (UNIT_BOX, &[], [0.5, PAST, 0.5], OUTSIDE),
    (UNIT_BOX, &[], [0.5, 0.5, PAST], OUTSIDE),
    // plane axes of 0, 1, 2
    (Shape::Polygon(0, 7.0), UPRIGHT, [7.0, 0.5, 1.5], INSIDE),
    (Shape::Polygon(0, 7.0), UPRIGHT, [7.0, 1.5, 0.5], OUTSIDE),
    (Shape::Polygon(1, 7.0), UPRIGHT, [1.5, 7.0, 0.5], INSIDE),
    (Shape::Polygon(1, 7.0), UPRIGHT, [0.5, 7.0, 1.5], OUTSIDE),
    (Shape::Polygon(2, 7.0), UPRIGHT, [0.5, 1.5, 7.0], INSIDE),
    (Shape::Polygon(2, 7.0), UPRIGHT, [1.5, 0.5, 7.0], OUTSIDE),
    // sphere radius 0 and -1, its centre
    (Shape::Sphere(CENTRE, 0.0), &[], CENTRE, INSIDE),
    (Shape::Sphere(CENTRE, -1.0), &[], CENTRE, OUTSIDE),
    // cylinder with start equal to stop
    (Shape::Cylinder(CENTRE, CENTRE, 1.0), &[], CENTRE, OUTSIDE),
    (Shape::Cylinder(CENTRE, CENTRE, 9.0), &[], [0.0; 3], OUTSIDE),
    // empty polygon
    (Shape::Polygon(2, 0.0), &[], [0.0; 3], OUTSIDE),
    // empty wire, radius the largest float
    (Shape::Wire(f64::MAX), &[], [0.0; 3], INSIDE),
    (Shape::Wire(f64::MAX), &[], CENTRE, INSIDE),
    // unit square polygon, normal 2, elevation 0
    (Shape::Polygon(2, 0.0), SQUARE, [0.5, 0.5, 0.0], INSIDE),
    (Shape::Polygon(2, 0.0), SQUARE, [1.0, 1.0, 0.0], INSIDE),
    (Shape::Polygon(2, 0.0), SQUARE, [1.5, 0.5, 0.0], OUTSIDE),
];

/// Compares the engine with document 01's answers, and csx too.
pub fn compare(report: &mut Report, engine: Engine) {
    let mut asker = Asker::new(engine, "document 01's cases, shapes, lists unchanged");
    let mut line = Line::new("document 01's cases, shapes");
    let mut csx = Kind::new("document 01's cases, shapes, csx");
    for (shape, list, point, want) in EDGES {
        asker.ask(&mut line, &shape, &mut Lent::new(list), point, want);
        let inside = Csx::new(&shape, list, CoordSystem::Cartesian).inside(point);
        csx.compare_for(Answer(inside.into()), Answer(want), || {
            question(&shape, list, point)
        });
    }
    line.add_to(report, &[OUTSIDE, INSIDE]);
    report.add(csx);
    report.add(asker.lists);
}

#[cfg(test)]
mod tests {
    use super::*;
    use crate::engine;
    use crate::kinds::shapes::tests::right;
    use crate::kinds::tests;

    fn fails(engine: Engine) -> bool {
        tests::fails(|report, _| compare(report, engine))
    }

    #[test]
    fn the_engine_and_csx_pass() {
        assert!(!fails(engine::answer));
        assert!(!fails(right));
    }

    #[test]
    fn wrong_engines_fail() {
        assert!(fails(|_, _, _| OUTSIDE));
        assert!(fails(|_, _, _| INSIDE));
        assert!(fails(|shape, list, [x, y, z]| right(
            shape,
            list,
            [y, x, z]
        )));
    }
}
