//! Where an answer turns as a point moves. The two values between which it turns
//! are neighbours, so that an engine which rounds otherwise is seen.

use crate::engine::Point;
use crate::random::{Random, around, turn};

/// How far from a turn is asked.
pub const STEPS: i64 = 3;

/// The point with `x` for its coordinate on this axis.
pub fn with_coordinate(mut point: Point, axis: usize, x: f64) -> Point {
    point[axis] = x;
    point
}

/// Points about each turn of the test on the way from one point to another, which
/// changes a coordinate at a time.
pub fn on_the_way(
    from: Point,
    to: Point,
    random: &mut Random,
    test: impl Fn(Point) -> bool,
) -> Vec<Point> {
    let first = random.below(3) as usize;
    let mut p = from;
    let mut points = Vec::new();
    for axis in [first, (first + 1) % 3, (first + 2) % 3] {
        let at = |x| with_coordinate(p, axis, x);
        let q = at(to[axis]);
        if test(p) != test(q) {
            let x = turn(p[axis], q[axis], |x| test(at(x)));
            points.extend(around(x, STEPS).map(at));
        }
        p = q;
    }
    points
}
