//! Numbers, directions and places of everyday size to build cases from.

use std::array::from_fn;

use csx::Vec3;

use crate::engine::Point;
use crate::random::{Random, power_of_two};

/// The relative tolerance of csx's rules.
pub const TOLERANCE: f64 = 1e-12;

/// How many points a case asks about.
const POINTS: usize = 12;

/// The points of a case.
pub fn points(random: &mut Random, mut point: impl FnMut(&mut Random) -> Point) -> Vec<Point> {
    (0..POINTS).map(|_| point(random)).collect()
}

/// Either zero.
fn zero(random: &mut Random) -> f64 {
    if random.flip() { -0.0 } else { 0.0 }
}

/// A coordinate. Half of them have few digits, so that numbers meet and sums are
/// exact; some are zero, tiny or large.
pub fn coordinate(random: &mut Random) -> f64 {
    match random.below(16) {
        0 => zero(random),
        1 => halfway(random),
        2..=8 => short(random),
        9..=14 => 8.0 * random.fraction() - 4.0,
        _ => (random.fraction() - 0.5) * power_of_two(random.below(81) as i32 - 40),
    }
}

/// A number from -2 to 2 whose sum with its tolerance lies halfway between two
/// values, or next to that: the last digits of the tolerance decide how the sum
/// is rounded.
fn halfway(random: &mut Random) -> f64 {
    // The tolerance in units of the number's last digit.
    let units = (4504 + random.below(4503)) as f64 + 0.5;
    let x = units / TOLERANCE * power_of_two(-52);
    if random.flip() { -x } else { x }
}

/// A coordinate from -4 to 4 with few digits.
pub fn short(random: &mut Random) -> f64 {
    random.below(17) as f64 / 2.0 - 4.0
}

/// A place: often the origin, where distances are exact.
pub fn place(random: &mut Random) -> Point {
    if random.below(4) == 0 {
        from_fn(|_| zero(random))
    } else {
        from_fn(|_| coordinate(random))
    }
}

/// A radius or a width. Some are zero, and some negative.
pub fn length(random: &mut Random) -> f64 {
    match random.below(16) {
        0 => zero(random),
        1 => coordinate(random),
        _ => coordinate(random).abs(),
    }
}

/// A direction of length 1: along an axis, with short fractions, or any.
pub fn direction(random: &mut Random) -> Point {
    let mut d = match random.below(4) {
        0 => [1.0, 0.0, 0.0],
        1 => [0.6, 0.8, 0.0],
        2 => [1.0 / 3.0, 2.0 / 3.0, 2.0 / 3.0],
        _ => Vec3(from_fn(|_| random.fraction() - 0.5)).normalized().0,
    };
    d.rotate_left(random.below(3) as usize);
    d.map(|x| if random.flip() { -x } else { x })
}

/// A direction of length 1 at right angles to `d`, or 0 where none is found.
pub fn across(random: &mut Random, d: Point) -> Point {
    Vec3(d).cross(Vec3(direction(random))).normalized().0
}

/// `t` times `d` from `p`.
pub fn from(p: Point, d: Point, t: f64) -> Point {
    [0, 1, 2].map(|i| p[i] + t * d[i])
}

/// From `a` to `b`.
pub fn between(a: Point, b: Point) -> Point {
    [0, 1, 2].map(|i| b[i] - a[i])
}

/// A number at the limit `x`, next to it, next to where a tolerance scaled from
/// `size` ends, or clearly on one side.
pub fn about(random: &mut Random, x: f64, size: f64) -> f64 {
    let end = TOLERANCE * size;
    match random.below(8) {
        0 => x,
        1 => random.near(x, 4),
        2 => random.near(x + end, 4),
        3 => random.near(x - end, 4),
        4 | 5 => x - size * random.fraction(),
        _ => x + size * random.fraction(),
    }
}

/// A coordinate for the range from `a` to `b`: mostly in it, or about its ends.
pub fn within(random: &mut Random, a: f64, b: f64) -> f64 {
    let size = a.abs().max(b.abs());
    match random.below(8) {
        0 => about(random, a, size),
        1 => about(random, b, size),
        2 => coordinate(random),
        _ => a + (b - a) * random.fraction(),
    }
}

/// How far along a segment, from 0 to 1, a point is: often about its ends.
pub fn share(random: &mut Random) -> f64 {
    match random.below(4) {
        0 => about(random, 0.0, 1.0),
        1 => about(random, 1.0, 1.0),
        _ => random.fraction(),
    }
}

#[cfg(test)]
mod tests {
    use super::*;
    use crate::random::moved;

    #[test]
    fn sums_of_halfway_numbers_lie_halfway() {
        let mut random = Random::new(1);
        for _ in 0..1000 {
            let x = halfway(&mut random).abs();
            let steps = TOLERANCE * x / (moved(x, 1) - x);
            assert!((steps.fract() - 0.5).abs() < 1e-10, "{steps}");
        }
    }

    #[test]
    fn directions_have_length_1_and_right_angles() {
        let mut random = Random::new(1);
        for _ in 0..1000 {
            let d = direction(&mut random);
            let a = across(&mut random, d);
            let (d, a) = (Vec3(d), Vec3(a));
            assert!((d.norm() - 1.0).abs() < 1e-15);
            assert!(a.norm() == 0.0 || (a.norm() - 1.0).abs() < 1e-15);
            assert!(a.dot(d).abs() < 1e-14);
        }
    }
}
