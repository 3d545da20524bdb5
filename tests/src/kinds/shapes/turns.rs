//! Where csx's answer turns as a point moves, or as one number of the shape
//! changes.

use super::expected::Csx;
use super::{Case, Form, INSIDE, OUTSIDE};
use crate::engine::Point;
use crate::kinds::turns::{STEPS, on_the_way};
use crate::random::{Random, around, turn};

/// How many changes of a number are tried for one that turns the answer.
const TRIES: u64 = 4;

/// The case with points about each turn on the way from a point inside to one
/// outside. There is none if the answers for the points of the case do not have
/// both.
pub fn of_point(form: &Form, case: &Case, answers: &[u64], random: &mut Random) -> Option<Case> {
    let point = |answer| {
        let place = answers.iter().position(|a| *a == answer)?;
        Some(case.points[place])
    };
    let (inside, outside) = (point(INSIDE)?, point(OUTSIDE)?);
    let csx = Csx::new(&case.shape, &case.list, form.system);
    Some(Case {
        points: on_the_way(inside, outside, random, |p| csx.inside(p)),
        ..case.clone()
    })
}

/// Cases about a turn of the answer for a point as one number of the shape or
/// of its list changes. There are none if the point or the shape is refused, or
/// no change that was tried turns the answer.
pub fn of_number(form: &Form, case: &Case, answers: &[u64], random: &mut Random) -> Vec<Case> {
    let place = random.below(answers.len() as u64) as usize;
    if ![OUTSIDE, INSIDE].contains(&answers[place]) {
        return Vec::new();
    }
    let point = case.points[place];
    let case = Case {
        points: vec![point],
        ..case.clone()
    };
    for _ in 0..TRIES {
        let Some((place, old)) = pick(&case, random) else {
            break;
        };
        let with = |x| case.with_number(place, x);
        let inside = |x| {
            let case = with(x);
            Csx::new(&case.shape, &case.list, form.system).inside(point)
        };
        let new = other(random, old, point);
        if inside(old) != inside(new) {
            return around(turn(old, new, inside), STEPS).map(with).collect();
        }
    }
    Vec::new()
}

/// The place of a number and the number, if there is any. In half of the cases
/// it is one of the shape's own, if there is any.
fn pick(case: &Case, random: &mut Random) -> Option<(usize, f64)> {
    let mut case = case.clone();
    let (own, all) = (case.shape.numbers_mut().len(), case.numbers_mut().count());
    let count = if own > 0 && random.flip() { own } else { all };
    let place = random.below(count as u64) as usize;
    case.numbers_mut().nth(place).map(|x| (place, *x))
}

/// A finite number to change `x` to.
fn other(random: &mut Random, x: f64, point: Point) -> f64 {
    match random.below(6) {
        0 => 0.0,
        1 => -x,
        2 => random.finite(),
        3 => (4.0 * random.fraction() * x).clamp(-f64::MAX, f64::MAX),
        _ => point[random.below(3) as usize],
    }
}

#[cfg(test)]
mod tests {
    use super::*;
    use crate::engine::Shape;
    use crate::kinds::shapes::form;
    use crate::random::moved;

    /// A sphere with a point inside and one outside.
    fn sphere() -> (Case, [u64; 2]) {
        let case = Case {
            shape: Shape::Sphere([0.0; 3], 1.0),
            list: Vec::new(),
            points: vec![[0.5, 0.0, 0.0], [3.0, 0.0, 0.0]],
        };
        (case, [INSIDE, OUTSIDE])
    }

    fn inside(case: &Case, point: Point) -> bool {
        Csx::new(&case.shape, &case.list, form("sphere").system).inside(point)
    }

    #[test]
    fn points_lie_on_both_sides_of_a_turn() {
        let (case, answers) = sphere();
        let mut random = Random::new(1);
        let found = of_point(form("sphere"), &case, &answers, &mut random).expect("a turn");
        let last = 1.0 + 1e-12;
        let wanted = around(last, STEPS).map(|x| [x, 0.0, 0.0]);
        assert_eq!(found.points, wanted.collect::<Vec<Point>>());
        assert!(inside(&case, [last, 0.0, 0.0]));
        assert!(!inside(&case, [moved(last, 1), 0.0, 0.0]));
        assert!(of_point(form("sphere"), &case, &[INSIDE; 2], &mut random).is_none());
    }

    #[test]
    fn numbers_lie_on_both_sides_of_a_turn() {
        let (case, answers) = sphere();
        let mut random = Random::new(1);
        let mut turns = 0;
        for _ in 0..100 {
            let cases = of_number(form("sphere"), &case, &answers, &mut random);
            let count = cases.iter().filter(|c| inside(c, c.points[0])).count();
            assert!(cases.is_empty() || 0 < count && count < cases.len());
            turns += cases.len();
        }
        assert!(turns > 0);
    }
}
