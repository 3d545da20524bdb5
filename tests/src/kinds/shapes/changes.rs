//! Changes to cases: to other magnitudes, and of single numbers.

use super::Case;
use crate::engine::{Point, Shape};
use crate::random::{Random, product};

/// Multiplies the lengths of a case by a power of two, so that they are of any
/// magnitude: those among them where squares and sums overflow, where squares
/// vanish, and where the tolerance no longer shrinks with the numbers. What is
/// at a limit mostly stays at it, since the products are exact but for the
/// largest and the smallest values. Angles stay.
pub fn rescale(case: &mut Case, random: &mut Random) {
    // The exponent that the largest number gets, and how far it may be off.
    let (wanted, spread) = match random.below(16) {
        0..=5 => return,
        6 => (0, 60),
        // A square overflows from 2^512 on, and vanishes below 2^-537.
        7 | 8 => (511, 4),
        9 | 10 => (-530, 20),
        // The tolerance is scaled from 1e-300 at least, about 2^-997.
        11 => (-997, 40),
        12 | 13 => (1022, 2),
        14 => (-1045, 30),
        _ => (0, 1000),
    };
    let off = random.below(2 * spread + 1) as i32 - spread as i32;
    let e = wanted + off - exponent(case);
    if let Shape::CylindricalBox(start, stop) = &mut case.shape {
        let with_angle = |p: Point| [product(p[0], e), p[1], product(p[2], e)];
        (*start, *stop) = (with_angle(*start), with_angle(*stop));
        case.points.iter_mut().for_each(|p| *p = with_angle(*p));
    } else {
        let points = case.points.as_flattened_mut().iter_mut();
        points.for_each(|x| *x = product(*x, e));
        case.numbers_mut().for_each(|x| *x = product(*x, e));
    }
}

/// The exponent of the largest number of a case.
fn exponent(case: &mut Case) -> i32 {
    let points = case.points.as_flattened().iter();
    let largest = points.fold(0.0, |m: f64, x| m.max(x.abs()));
    let largest = case.numbers_mut().fold(largest, |m, x| m.max(x.abs()));
    (largest.to_bits() >> 52) as i32 - 1023
}

/// Replaces some numbers of a case by others: of the case, so that vertices and
/// ends fall together, or any, not only finite ones.
pub fn alter(case: &mut Case, random: &mut Random) {
    let mut all = case.points.as_flattened().to_vec();
    all.extend(case.numbers_mut().map(|x| *x));
    let mut replace = |x: &mut f64| {
        *x = match random.below(64) {
            0 => 0.0,
            1 => -*x,
            2 => random.near(*x, 4),
            3 => random.any(),
            4 => f64::MAX.copysign(*x),
            5..=7 => all[random.below(all.len() as u64) as usize],
            _ => *x,
        }
    };
    case.numbers_mut().for_each(&mut replace);
    case.points
        .as_flattened_mut()
        .iter_mut()
        .for_each(&mut replace);
}

#[cfg(test)]
mod tests {
    use super::*;
    use crate::kinds::shapes::FORMS;

    #[test]
    fn rescaled_cases_stay_finite_and_keep_their_angles() {
        let mut random = Random::new(1);
        for form in &FORMS {
            for _ in 0..200 {
                let mut case = (form.case)(&mut random, 3);
                let before = case.points.clone();
                rescale(&mut case, &mut random);
                assert!(case.points.as_flattened().iter().all(|x| x.is_finite()));
                assert!(case.numbers_mut().all(|x| x.is_finite()));
                if let Shape::CylindricalBox(..) = case.shape {
                    let angles = before.iter().zip(&case.points).map(|(p, q)| (p[1], q[1]));
                    angles.for_each(|(a, b)| assert_eq!(a, b));
                }
            }
        }
    }
}
