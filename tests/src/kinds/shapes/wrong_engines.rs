//! Engines with one fault each, which the cases of a shape have to find.

use std::f64::consts::TAU;

use csx::Vec3;
use csx::primitives::basic::axial;
use csx::primitives::geom::{angle_ok, dist_point_segment, in_range, tol};

use super::tests::right;
use super::{Asker, Engine, FORMS, INSIDE, OUTSIDE, cases, form};
use crate::engine::{Point, Shape};
use crate::kinds::tests::fails;
use crate::plan::{DEFAULT_SEED, Plan};

/// Whether the cases of a shape find a fault.
fn caught(name: &str, engine: Engine) -> bool {
    let plan = Plan::quick(DEFAULT_SEED).part(100);
    let mut asker = Asker::new(engine, "");
    fails(|report, _| cases::form_cases(report, &plan, form(name), &mut asker))
}

/// The answer of another rule where nothing is refused.
fn ruled(shape: &Shape, list: &mut [f64], p: Point, rule: impl FnOnce(&[f64]) -> bool) -> u64 {
    match right(shape, list, p) {
        OUTSIDE | INSIDE => rule(list).into(),
        refusal => refusal,
    }
}

/// The answer for another shape where nothing is refused.
fn renamed(shape: &Shape, other: Shape, list: &mut [f64], p: Point) -> u64 {
    ruled(shape, list, p, |list| {
        right(&other, &mut list.to_vec(), p) == INSIDE
    })
}

/// The answer for another list where nothing is refused.
fn relisted(shape: &Shape, list: &mut [f64], p: Point, other: fn(&mut Vec<f64>)) -> u64 {
    ruled(shape, list, p, |list| {
        let mut list = list.to_vec();
        other(&mut list);
        right(shape, &mut list, p) == INSIDE
    })
}

#[test]
fn a_right_engine_is_not_caught() {
    for form in &FORMS {
        assert!(!caught(form.name, right));
    }
}

#[test]
fn a_constant_answer_is_caught() {
    for form in FORMS.iter().filter(|form| form.solid) {
        assert!(caught(form.name, |_, _, _| OUTSIDE));
        assert!(caught(form.name, |_, _, _| INSIDE));
    }
}

#[test]
fn wrong_boxes_are_caught() {
    fn by(shape: &Shape, p: Point, range: fn(f64, f64, f64) -> bool) -> u64 {
        let Shape::Box(a, b) = *shape else {
            unreachable!()
        };
        ruled(shape, &mut [], p, |_| {
            (0..3).all(|i| range(p[i], a[i], b[i]))
        })
    }
    fn range(v: f64, a: f64, b: f64, tolerance: f64) -> bool {
        v >= a.min(b) - tolerance && v <= a.max(b) + tolerance
    }
    // no tolerance
    assert!(caught("box", |shape, _, p| {
        by(shape, p, |v, a, b| range(v, a, b, 0.0))
    }));
    // a tolerance that shrinks with the numbers to zero
    assert!(caught("box", |shape, _, p| {
        by(shape, p, |v, a, b| {
            range(v, a, b, 1e-12 * v.abs().max(a.abs()).max(b.abs()))
        })
    }));
    // a tolerance that leaves out the value itself
    assert!(caught("box", |shape, _, p| {
        by(shape, p, |v, a, b| range(v, a, b, tol(a, b)))
    }));
    // corners in one order only
    assert!(caught("box", |shape, _, p| {
        by(shape, p, |v, a, b| a <= b && in_range(v, a, b))
    }));
}

#[test]
fn wrong_cylindrical_boxes_are_caught() {
    fn by(shape: &Shape, p: Point, rule: fn(Point, Point, Point) -> bool) -> u64 {
        let Shape::CylindricalBox(a, b) = *shape else {
            unreachable!()
        };
        ruled(shape, &mut [], p, |_| {
            in_range(p[2], a[2], b[2]) && in_range(p[0], a[0], b[0]) && rule(a, b, p)
        })
    }
    const NAME: &str = "cylindrical box";
    // angles compared as lengths
    assert!(caught(NAME, |shape, _, p| {
        by(shape, p, |a, b, p| {
            p[0] <= tol(a[0], b[0]) || in_range(p[1], a[1], b[1])
        })
    }));
    // on the axis too, only the angles of the box
    assert!(caught(NAME, |shape, _, p| {
        by(shape, p, |a, b, p| angle_ok(p[1], a[1], b[1]))
    }));
    // an axis without a tolerance
    assert!(caught(NAME, |shape, _, p| {
        by(shape, p, |a, b, p| {
            p[0] <= 0.0 || angle_ok(p[1], a[1], b[1])
        })
    }));
    // no tolerance below the first angle
    assert!(caught(NAME, |shape, _, p| {
        by(shape, p, |a, b, p| {
            let (lo, hi) = (a[1].min(b[1]), a[1].max(b[1]));
            let d = (p[1] - lo).rem_euclid(TAU);
            p[0] <= tol(a[0], b[0]) || hi - lo >= TAU - 1e-12 || d <= hi - lo + 1e-12
        })
    }));
    // a negative distance from the axis taken for the other side
    assert!(caught(NAME, |shape, list, [r, a, z]| {
        right(shape, list, [r.abs(), a, z])
    }));
}

#[test]
fn wrong_multi_boxes_are_caught() {
    for name in ["multi-box", "multi-box, cylindrical"] {
        // the first box alone
        assert!(caught(name, |shape, list, p| {
            relisted(shape, list, p, |list| list.truncate(6))
        }));
        // not the last box
        assert!(caught(name, |shape, list, p| {
            relisted(shape, list, p, |list| {
                list.truncate(list.len().saturating_sub(6))
            })
        }));
    }
}

#[test]
fn wrong_spheres_are_caught() {
    fn by(shape: &Shape, p: Point, rule: fn(Vec3, f64) -> bool) -> u64 {
        let Shape::Sphere(c, r) = *shape else {
            unreachable!()
        };
        ruled(shape, &mut [], p, |_| rule(Vec3(p) - Vec3(c), r))
    }
    // without its surface
    assert!(caught("sphere", |shape, _, p| {
        by(shape, p, |d, r| d.norm() < r + tol(r, 0.0))
    }));
    // a distance whose squares do not overflow
    assert!(caught("sphere", |shape, _, p| {
        by(shape, p, |d, r| {
            d[0].hypot(d[1]).hypot(d[2]) <= r + tol(r, 0.0)
        })
    }));
    // a distance with a product that is not rounded
    assert!(caught("sphere", |shape, _, p| {
        by(shape, p, |d, r| {
            let square = d[2].mul_add(d[2], d[0] * d[0] + d[1] * d[1]);
            square.sqrt() <= r + tol(r, 0.0)
        })
    }));
    // another order of the sums
    assert!(caught("sphere", |shape, _, p| {
        by(shape, p, |d, r| d.norm() - r <= tol(r, 0.0))
    }));
    // a negative radius taken for its size
    assert!(caught("sphere", |shape, _, p| {
        by(shape, p, |d, r| d.norm() <= r.abs() + tol(r, 0.0))
    }));
}

#[test]
fn wrong_spherical_shells_are_caught() {
    fn by(shape: &Shape, p: Point, rule: fn(f64, f64, f64) -> bool) -> u64 {
        let Shape::SphericalShell(c, r, w) = *shape else {
            unreachable!()
        };
        ruled(shape, &mut [], p, |_| {
            rule((Vec3(p) - Vec3(c)).norm(), r, w)
        })
    }
    const NAME: &str = "spherical shell";
    // the sign of the width counts
    assert!(caught(NAME, |shape, _, p| {
        by(shape, p, |d, r, w| {
            (d - r).abs() <= w / 2.0 + tol(r, w / 2.0)
        })
    }));
    // the whole width on either side
    assert!(caught(NAME, |shape, _, p| {
        by(shape, p, |d, r, w| (d - r).abs() <= w.abs() + tol(r, w))
    }));
    // a tolerance scaled from the radius alone
    assert!(caught(NAME, |shape, _, p| {
        by(shape, p, |d, r, w| {
            (d - r).abs() <= w.abs() / 2.0 + tol(r, 0.0)
        })
    }));
    // filled
    assert!(caught(NAME, |shape, _, p| {
        by(shape, p, |d, r, w| d <= r + w.abs() / 2.0 + tol(r, w / 2.0))
    }));
}

#[test]
fn wrong_cylinders_are_caught() {
    fn by(shape: &Shape, p: Point, rule: fn(Vec3, Vec3, f64, Vec3) -> bool) -> u64 {
        let Shape::Cylinder(a, b, r) = *shape else {
            unreachable!()
        };
        ruled(shape, &mut [], p, |_| rule(Vec3(a), Vec3(b), r, Vec3(p)))
    }
    // ends without a tolerance
    assert!(caught("cylinder", |shape, _, p| {
        by(shape, p, |a, b, r, p| {
            axial(a, b, p).is_some_and(|(t, d, _)| (0.0..=1.0).contains(&t) && d <= r + tol(r, 0.0))
        })
    }));
    // round ends
    assert!(caught("cylinder", |shape, _, p| {
        by(shape, p, |a, b, r, p| {
            a != b && dist_point_segment(p, a, b) <= r + tol(r, 0.0)
        })
    }));
    // an axis without length told by its ends, not by its squared length
    assert!(caught("cylinder", |shape, _, p| {
        by(shape, p, |a, b, r, p| {
            let d = b - a;
            let t = (p - a).dot(d) / d.norm_sq();
            let tt = tol(d.norm(), 0.0) / d.norm();
            let distance = (p - (a + d * t)).norm();
            a != b && t >= -tt && t <= 1.0 + tt && distance <= r + tol(r, 0.0)
        })
    }));
}

#[test]
fn wrong_cylindrical_shells_are_caught() {
    fn other(shape: &Shape, p: Point, other: fn(Point, Point, f64, f64) -> Shape) -> u64 {
        let Shape::CylindricalShell(a, b, r, w) = *shape else {
            unreachable!()
        };
        renamed(shape, other(a, b, r, w), &mut [], p)
    }
    const NAME: &str = "cylindrical shell";
    // no negative widths
    assert!(caught(NAME, |shape, _, p| {
        other(shape, p, |a, b, r, w| {
            Shape::CylindricalShell(a, b, r, w.max(0.0))
        })
    }));
    // filled
    assert!(caught(NAME, |shape, _, p| {
        other(shape, p, |a, b, r, w| {
            Shape::Cylinder(a, b, r + w.abs() / 2.0)
        })
    }));
    // radius and width exchanged
    assert!(caught(NAME, |shape, _, p| {
        other(shape, p, |a, b, r, w| Shape::CylindricalShell(a, b, w, r))
    }));
}

#[test]
fn wrong_polygons_are_caught() {
    fn other(shape: &Shape, list: &mut [f64], p: Point, other: fn(u64, f64) -> Shape) -> u64 {
        let Shape::Polygon(n, e) = *shape else {
            unreachable!()
        };
        renamed(shape, other(n, e), list, p)
    }
    // a direction by its remainder
    assert!(caught("polygon", |shape, list, p| {
        other(shape, list, p, |n, e| Shape::Polygon(n % 3, e))
    }));
    // a direction by its lower digits
    assert!(caught("polygon", |shape, list, p| {
        other(shape, list, p, |n, e| {
            Shape::Polygon(u64::from(n as u32), e)
        })
    }));
    // the axes of one plane exchanged
    assert!(caught("polygon", |shape, list, [x, y, z]| {
        match shape {
            Shape::Polygon(1, _) => right(shape, list, [z, y, x]),
            _ => right(shape, list, [x, y, z]),
        }
    }));
    // not the last vertex
    assert!(caught("polygon", |shape, list, p| {
        relisted(shape, list, p, |list| {
            list.truncate(list.len().saturating_sub(2))
        })
    }));
    // the other end of each edge counted as crossed
    assert!(caught("polygon", |shape, list, [x, y, z]| {
        let mirrored = |list: &[f64]| {
            let mut list = list.to_vec();
            list.iter_mut().skip(1).step_by(2).for_each(|v| *v = -*v);
            right(shape, &mut list, [x, -y, z]) == INSIDE
        };
        match shape {
            Shape::Polygon(2, _) => ruled(shape, list, [x, y, z], mirrored),
            _ => right(shape, list, [x, y, z]),
        }
    }));
}

#[test]
fn wrong_extruded_polygons_are_caught() {
    fn other(shape: &Shape, list: &mut [f64], p: Point, other: fn(u64, f64, f64) -> Shape) -> u64 {
        let Shape::LinPoly(n, e, l) = *shape else {
            unreachable!()
        };
        renamed(shape, other(n, e, l), list, p)
    }
    const NAME: &str = "extruded polygon";
    // flat
    assert!(caught(NAME, |shape, list, p| {
        other(shape, list, p, |n, e, _| Shape::Polygon(n, e))
    }));
    // upwards only
    assert!(caught(NAME, |shape, list, p| {
        other(shape, list, p, |n, e, l| Shape::LinPoly(n, e, l.max(0.0)))
    }));
    // the length taken for the other end
    assert!(caught(NAME, |shape, list, p| {
        other(shape, list, p, |n, e, l| Shape::LinPoly(n, e, l - e))
    }));
    // the other end kept finite
    assert!(caught(NAME, |shape, list, p| {
        other(shape, list, p, |n, e, l| {
            let end = (e + l).clamp(f64::MIN, f64::MAX);
            Shape::LinPoly(n, e, if end == e + l { l } else { end - e })
        })
    }));
}

#[test]
fn wrong_wires_are_caught() {
    type Rule = fn(f64, &[Point], Vec3) -> bool;
    fn by(shape: &Shape, list: &mut [f64], p: Point, rule: Rule) -> u64 {
        let Shape::Wire(r) = *shape else {
            unreachable!()
        };
        ruled(shape, list, p, |list| rule(r, list.as_chunks().0, Vec3(p)))
    }
    fn distance(points: &[Point], p: Vec3, min: fn(f64, f64) -> f64) -> f64 {
        match points {
            [q] => (p - Vec3(*q)).norm(),
            _ => points
                .windows(2)
                .map(|w| dist_point_segment(p, Vec3(w[0]), Vec3(w[1])))
                .fold(f64::INFINITY, min),
        }
    }
    fn scale(points: &[Point]) -> f64 {
        let numbers = points.as_flattened().iter();
        numbers.fold(0.0, |m: f64, x| m.max(x.abs()))
    }
    // closed
    assert!(caught("wire", |shape, list, p| {
        relisted(shape, list, p, |list| {
            list.extend_from_within(..list.len().min(3))
        })
    }));
    // without its last vertex
    assert!(caught("wire", |shape, list, p| {
        relisted(shape, list, p, |list| {
            list.truncate(list.len().saturating_sub(3))
        })
    }));
    // nothing about a single vertex
    assert!(caught("wire", |shape, list, p| {
        by(shape, list, p, |r, points, p| {
            points.len() != 1 && distance(points, p, f64::min) <= r + tol(scale(points), r)
        })
    }));
    // a distance that is no number kept as the least
    assert!(caught("wire", |shape, list, p| {
        by(shape, list, p, |r, points, p| {
            let least = |m: f64, d: f64| if d.is_nan() || d < m { d } else { m };
            distance(points, p, least) <= r + tol(scale(points), r)
        })
    }));
    // a tolerance scaled from the radius alone
    assert!(caught("wire", |shape, list, p| {
        by(shape, list, p, |r, points, p| {
            distance(points, p, f64::min) <= r + tol(r, 0.0)
        })
    }));
}

#[test]
fn an_inside_of_curves_and_points_is_caught() {
    assert!(caught("curve", |shape, list, p| {
        ruled(shape, list, p, |list| list.as_chunks().0.contains(&p))
    }));
    assert!(caught("point", |shape, list, p| {
        ruled(
            shape,
            list,
            p,
            |_| matches!(*shape, Shape::Point(q) if p == q),
        )
    }));
}
