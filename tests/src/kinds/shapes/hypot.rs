//! What `hypot` changes. csx as published takes `f64::hypot` for the distance from
//! an edge of a polygon. The engine and both forms of the oracle take the square root
//! of a × a + b × b, each step rounded. csx's rule is written here in plain lines with
//! the `hypot` passed in. With the rounded one it has to be csx's and the engine's;
//! with Rust's the differences are counted.

use csx::primitives::geom::{dist_point_segment_2d, point_in_polygon};

use super::cases::random_case;
use super::expected::refusal;
use super::{Asker, Case, Engine, Line, form, question, turns};
use crate::engine::{Point, Shape};
use crate::kinds::lent::Lent;
use crate::plan::Plan;
use crate::report::{self, Report, Value};

/// A polygon across the last axis, with its points at no height.
const FLAT: Shape = Shape::Polygon(2, 0.0);

/// What is counted where `f64::hypot` is taken.
pub const OTHER_DISTANCE: &str = "another distance by f64::hypot";
pub const OTHER_ANSWER: &str = "another answer by f64::hypot";

type Vertex = [f64; 2];
type Hypot = fn(f64, f64) -> f64;

/// The square root of the sum of squares, each step rounded.
fn rounded(a: f64, b: f64) -> f64 {
    (a * a + b * b).sqrt()
}

/// The edges of a polygon, each from a vertex to the one before it.
fn edges(vertices: &[Vertex]) -> impl Iterator<Item = (Vertex, Vertex)> {
    let before = vertices.iter().cycle().skip(vertices.len().max(1) - 1);
    vertices.iter().copied().zip(before.copied())
}

/// How far a point is from an edge.
fn distance([x, y]: Vertex, (a, b): (Vertex, Vertex), hypot: Hypot) -> f64 {
    let (dx, dy) = (b[0] - a[0], b[1] - a[1]);
    let square = dx * dx + dy * dy;
    let t = if square > 0.0 {
        (((x - a[0]) * dx + (y - a[1]) * dy) / square).clamp(0.0, 1.0)
    } else {
        0.0
    };
    hypot(x - a[0] - t * dx, y - a[1] - t * dy)
}

/// Whether a point is in a polygon or within the tolerance of an edge.
fn inside(p: Vertex, vertices: &[Vertex], hypot: Hypot) -> bool {
    let numbers = vertices.as_flattened().iter();
    let eps = 1e-12 * numbers.fold(1e-300, |m: f64, x| m.max(x.abs()));
    let crossed = |(a, b): &(Vertex, Vertex)| {
        (a[1] > p[1]) != (b[1] > p[1])
            && p[0] < a[0] + (p[1] - a[1]) * (b[0] - a[0]) / (b[1] - a[1])
    };
    edges(vertices).any(|edge| distance(p, edge, hypot) <= eps)
        || edges(vertices).filter(crossed).count() % 2 == 1
}

/// The function under test, and the lines that are compared.
struct Lines {
    asker: Asker,
    answers: Line,
    csx: report::Line<String>,
    distances: report::Line<String>,
}

impl Lines {
    fn new(engine: Engine) -> Self {
        Self {
            asker: Asker::new(engine, "hypot, lists unchanged"),
            answers: Line::new("hypot, polygons"),
            csx: report::Line::new("hypot, polygons, csx"),
            distances: report::Line::new("hypot, distances from an edge, csx"),
        }
    }

    /// Asks about each point of a flat polygon, and gives the answers that are
    /// expected.
    fn ask(&mut self, case: &Case) -> Vec<u64> {
        let vertices = case.list.as_chunks().0;
        let csx: Vec<(f64, f64)> = vertices.iter().map(|v: &Vertex| (v[0], v[1])).collect();
        let mut lent = Lent::new(&case.list);
        let answer = |point: &Point| {
            let p = [point[0], point[1]];
            let want = inside(p, vertices, rounded);
            self.asker
                .ask(&mut self.answers, &FLAT, &mut lent, *point, want.into());
            let text = || question(&FLAT, &case.list, *point);
            let by_csx = point_in_polygon((p[0], p[1]), &csx);
            self.csx.kind.compare_for(want, by_csx, text);
            if inside(p, vertices, f64::hypot) != want {
                self.csx.see(OTHER_ANSWER);
            }
            for edge in edges(vertices) {
                self.distance(p, edge);
            }
            want.into()
        };
        case.points.iter().map(answer).collect()
    }

    fn distance(&mut self, p: Vertex, (a, b): (Vertex, Vertex)) {
        let got = distance(p, (a, b), rounded);
        let pair = |v: Vertex| (v[0], v[1]);
        let want = dist_point_segment_2d(pair(p), pair(a), pair(b));
        let input = [p, a, b];
        self.distances.kind.compare(input.as_flattened(), got, want);
        if !distance(p, (a, b), f64::hypot).same(got) {
            self.distances.see(OTHER_DISTANCE);
        }
    }

    fn add_to(self, report: &mut Report) {
        self.answers.add_to(report, form("polygon").answers());
        self.csx.add_to(report, &[OTHER_ANSWER]);
        self.distances.add_to(report, &[OTHER_DISTANCE]);
        report.add(self.asker.lists);
    }
}

/// Compares polygons of all magnitudes, and the points where the answer turns.
pub fn compare(report: &mut Report, plan: &Plan, engine: Engine) {
    let polygon = form("polygon");
    let mut random = plan.random("hypot");
    let mut lines = Lines::new(engine);
    for _ in 0..plan.times(10_000) {
        let case = flat(random_case(polygon, &mut random));
        let answers = lines.ask(&case);
        if let Some(turning) = turns::of_point(polygon, &case, &answers, &mut random) {
            lines.ask(&accepted(turning));
        }
    }
    lines.add_to(report);
}

/// The same polygon across the last axis.
fn flat(mut case: Case) -> Case {
    let Shape::Polygon(normal, _) = case.shape else {
        unreachable!("the form has no other shape")
    };
    for point in &mut case.points {
        point.rotate_left((normal % 3) as usize);
        *point = [point[1], point[2], 0.0];
    }
    case.shape = FLAT;
    accepted(case)
}

/// The case with the points that are not refused.
fn accepted(mut case: Case) -> Case {
    let Case { list, points, .. } = &mut case;
    points.retain(|point| refusal(&FLAT, list, *point).is_none());
    case
}

#[cfg(test)]
mod tests {
    use super::*;
    use crate::engine;
    use crate::kinds::shapes::tests::right;
    use crate::kinds::tests;
    use crate::plan::DEFAULT_SEED;

    fn fails(engine: Engine) -> bool {
        let plan = Plan::quick(DEFAULT_SEED).part(100);
        tests::fails(|report, _| compare(report, &plan, engine))
    }

    /// An engine that takes this `hypot`.
    fn by(list: &[f64], point: Point, hypot: Hypot) -> u64 {
        inside([point[0], point[1]], list.as_chunks().0, hypot).into()
    }

    #[test]
    fn the_engine_and_the_rounded_hypot_pass() {
        assert!(!fails(engine::answer));
        assert!(!fails(right));
        assert!(!fails(|_, list, point| by(list, point, rounded)));
    }

    #[test]
    fn another_hypot_fails() {
        assert!(fails(|_, list, point| by(list, point, f64::hypot)));
        assert!(fails(|_, list, point| by(list, point, |a, b| {
            a.mul_add(a, b * b).sqrt()
        })));
    }

    #[test]
    fn squares_overflow_and_vanish() {
        let square = |side: f64| [[0.0, 0.0], [side, 0.0], [side, side], [0.0, side]];
        let answers = |side: f64, p| {
            [rounded, f64::hypot].map(|hypot: Hypot| inside(p, &square(side), hypot))
        };
        // beside an edge by less than the tolerance, and by more
        assert_eq!(answers(1e200, [-1e187, 1.0]), [false, true]);
        assert_eq!(answers(1e-200, [-1e-205, 1e-201]), [true, false]);
        assert_eq!(answers(1.0, [0.5, 0.5]), [true; 2]);
        assert_eq!(answers(1.0, [1.5, 0.5]), [false; 2]);
    }

    #[test]
    fn an_empty_polygon_has_no_edges() {
        assert_eq!(edges(&[]).count(), 0);
        assert_eq!(edges(&[[1.0, 2.0]]).count(), 1);
        assert!(!inside([0.0; 2], &[], rounded));
    }
}
