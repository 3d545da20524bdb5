//! What is worked out of vectors and of boxes, bit for bit, against csx's `Vec3` and
//! `BoundingBox`.

use csx::{BoundingBox, Vec3};

use super::meshes::{Line, note_zeros, take_zeros};
use crate::engine::Point;
use crate::engine::vectors::{Corners, OfBoxes, OfVectors};
use crate::plan::Plan;
use crate::random::Random;
use crate::report::{Kind, Report, Value};

/// Compares what is worked out of two vectors and a number.
pub fn vectors(report: &mut Report, plan: &Plan, engine: impl Fn(Point, Point, f64) -> OfVectors) {
    let mut kind = Kind::new("vectors, csx");
    let mut random = plan.random("vectors");
    for _ in 0..plan.times(200_000) {
        let [a, b] = [vector(&mut random), vector(&mut random)];
        let s = random.any();
        let given = [&a[..], &b, &[s]];
        compare(&mut kind, &given, &engine(a, b, s), &of_vectors(a, b, s));
    }
    report.add(kind);
}

/// What a line of boxes has to see.
const NEEDED: [&str; 7] = [
    "they meet",
    "apart",
    "equal",
    "dimension 0",
    "dimension 1",
    "dimension 2",
    "dimension 3",
];

/// How many corners are found by minima and maxima, which come first, and the place of the
/// three answers behind them.
const CHOSEN: usize = 4;
const ANSWERS: usize = CHOSEN;

/// Compares what is worked out of two boxes and of points.
pub fn boxes(
    report: &mut Report,
    plan: &Plan,
    engine: impl Fn(Corners, Corners, &[f64]) -> OfBoxes,
) {
    let mut line = Line::new("pairs of boxes, csx");
    let mut zeros = 0;
    let mut random = plan.random("pairs of boxes");
    for _ in 0..plan.times(200_000) {
        let [a, b] = pair(&mut random);
        let points = points(a[0], &mut random);
        let given = [a.as_flattened(), b.as_flattened(), &points];
        let got = engine(a, b, &points);
        let mut want = of_boxes(a, b, &points);
        let front = want[..CHOSEN].as_flattened_mut();
        zeros += take_zeros(front, got[..CHOSEN].as_flattened());
        compare(&mut line.kind, &given, &got, &want);
        let [meet, equal, dimension] = want[ANSWERS];
        line.see(if meet == 1.0 { "they meet" } else { "apart" });
        line.see_times("equal", equal as u64);
        line.see(format!("dimension {dimension}"));
    }
    line.add_to(report, &NEEDED);
    note_zeros(report, zeros);
}

/// Compares number by number.
fn compare(kind: &mut Kind, given: &[&[f64]], got: &[Point], want: &[Point]) {
    let numbers = got.as_flattened().iter().zip(want.as_flattened());
    for (place, (got, want)) in numbers.enumerate() {
        kind.compare_for(*got, *want, || {
            let given: Vec<String> = given.concat().into_iter().map(Value::text).collect();
            format!("{}, number {place}", given.join(", "))
        });
    }
}

/// What csx works out of two vectors and a number.
fn of_vectors(a: Point, b: Point, s: f64) -> OfVectors {
    let [a, b] = [a, b].map(Vec3);
    let [mut sum, mut difference] = [a, a];
    sum += b;
    difference -= b;
    [
        Vec3::ZERO,
        Vec3::unit(0),
        Vec3::unit(1),
        Vec3::unit(2),
        -a,
        a / s,
        s * a,
        a.normalized(),
        sum,
        difference,
    ]
    .map(|v| v.0)
}

/// What csx works out of two boxes and of points.
fn of_boxes(a: Corners, b: Corners, points: &[f64]) -> OfBoxes {
    let [a, b] = [a, b].map(|corners| {
        let [min, max] = corners.map(Vec3);
        BoundingBox { min, max }
    });
    let common = a.intersection(&b);
    let around = BoundingBox::from_points(points.as_chunks().0.iter().copied().map(Vec3));
    let mut found = OfBoxes::default();
    found[..CHOSEN].copy_from_slice(&[common.min.0, common.max.0, around.min.0, around.max.0]);
    let [meet, equal] = [a.intersects(&b), a == b].map(f64::from);
    found[ANSWERS] = [meet, equal, a.dimension() as f64];
    found[ANSWERS + 1..].copy_from_slice(&a.corners().map(|corner| corner.0));
    found
}

/// Three numbers of any kind, or such that are often equal, opposite or neighbours.
fn vector(random: &mut Random) -> Point {
    let x = random.any();
    if random.flip() {
        [x, random.rival(x), random.rival(x)]
    } else {
        [x, random.any(), random.any()]
    }
}

/// Two boxes, often with edges that are equal or neighbours. One of four has its corners as they
/// come, so that it may be empty or have a NaN.
fn pair(random: &mut Random) -> [Corners; 2] {
    let a = shaped([vector(random), vector(random)], random);
    if random.below(8) == 0 {
        return [a, a];
    }
    let b = a.map(|corner| rivals(corner, random));
    [a, shaped(b, random)]
}

fn rivals(corner: Point, random: &mut Random) -> Point {
    corner.map(|x| random.rival(x))
}

/// The box with these two corners, as they are or with the lower one first, also flat.
fn shaped([a, b]: Corners, random: &mut Random) -> Corners {
    if random.below(4) == 0 {
        return [a, b];
    }
    let mut found = [a, b];
    for i in 0..3 {
        let (low, high) = (a[i].min(b[i]), a[i].max(b[i]));
        found[0][i] = low;
        found[1][i] = if random.below(4) == 0 { low } else { high };
    }
    found
}

/// The numbers of up to three points, often equal to those of a corner, and at times one or two
/// more, which are no point.
fn points(corner: Point, random: &mut Random) -> Vec<f64> {
    let numbers = random.below(12) as usize;
    let near = corner.iter().cycle().take(numbers);
    near.map(|x| random.rival(*x)).collect()
}

#[cfg(test)]
mod tests {
    use super::*;
    use crate::kinds::tests::fails;

    fn vectors_fail(engine: fn(Point, Point, f64) -> OfVectors) -> bool {
        fails(|report, plan| vectors(report, plan, engine))
    }

    fn boxes_fail(engine: fn(Corners, Corners, &[f64]) -> OfBoxes) -> bool {
        fails(|report, plan| boxes(report, plan, engine))
    }

    #[test]
    fn csx_itself_passes() {
        assert!(!vectors_fail(of_vectors));
        assert!(!boxes_fail(of_boxes));
    }

    /// An engine with another vector at a place.
    fn with<const N: usize>(mut found: [Point; N], place: usize, other: Point) -> [Point; N] {
        found[place] = other;
        found
    }

    #[test]
    fn wrong_vectors_are_caught() {
        // zeros that keep their sign
        assert!(vectors_fail(|a, b, s| {
            with(of_vectors(a, b, s), 4, a.map(|x| 0.0 - x))
        }));
        // the quotient rounded twice
        assert!(vectors_fail(|a, b, s| {
            with(of_vectors(a, b, s), 5, a.map(|x| x * (1.0 / s)))
        }));
        // a vector of no length divided by it, and one with a NaN
        assert!(vectors_fail(|a, b, s| {
            with(of_vectors(a, b, s), 7, (Vec3(a) / Vec3(a).norm()).0)
        }));
        // the difference turned round
        assert!(vectors_fail(|a, b, s| {
            with(of_vectors(a, b, s), 9, (Vec3(b) - Vec3(a)).0)
        }));
    }

    #[test]
    fn wrong_boxes_are_caught() {
        // the lower corner of the union
        assert!(boxes_fail(|a, b, points| {
            let found = of_boxes(a, b, points);
            with(found, 0, Vec3(a[0]).min(Vec3(b[0])).0)
        }));
        // a box of the numbers behind the last point too
        assert!(boxes_fail(|a, b, points| {
            let mut longer = points.to_vec();
            longer.resize(points.len().next_multiple_of(3), 0.0);
            of_boxes(a, b, &longer)
        }));
        // boxes that touch taken for apart
        assert!(boxes_fail(|a, b, points| {
            let mut found = of_boxes(a, b, points);
            let apart = (0..3).any(|i| a[0][i] >= b[1][i] || b[0][i] >= a[1][i]);
            found[ANSWERS][0] = f64::from(!apart && found[ANSWERS][0] == 1.0);
            found
        }));
        // boxes with a NaN equal to themselves
        assert!(boxes_fail(|a, b, points| {
            let mut found = of_boxes(a, b, points);
            let bits = |corners: Corners| corners.map(|corner| corner.map(f64::to_bits));
            found[ANSWERS][1] = f64::from(bits(a) == bits(b));
            found
        }));
        // an axis without extent counted
        assert!(boxes_fail(|a, b, points| {
            let mut found = of_boxes(a, b, points);
            let wide = (0..3).filter(|i| a[1][*i] >= a[0][*i]).count();
            found[ANSWERS][2] = wide as f64;
            found
        }));
        // the last corner once more in place of the one before it
        assert!(boxes_fail(|a, b, points| {
            let found = of_boxes(a, b, points);
            with(found, 11, found[12])
        }));
    }
}
