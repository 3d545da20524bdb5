//! The steps of the square root: its guess, the look at the guess and its
//! neighbours, and the second way, digit by digit.

use crate::engine::Significand;
use crate::kinds::root_inputs::{self, Inputs};
use crate::plan::Plan;
use crate::random::{DIGITS, Random};
use crate::report::{Kind, Report};
use crate::whole::nearest_root;

/// Compares every step, and notes how often the guess needs a correction.
pub fn compare(report: &mut Report, plan: &Plan, steps: &Significand) {
    let mut kinds = Kinds {
        digits: Kind::new("by_digits, significands of roots"),
        settled: Kind::new("settle, at the guess"),
    };
    for inputs in root_inputs::all(&plan.part(10)) {
        corrections(report, &mut kinds, steps, inputs);
    }
    report.add(kinds.digits);
    report.add(kinds.settled);
    any_digits(report, plan, steps);
    near_guesses(report, plan, steps);
    bad_guesses(report, plan, steps);
}

struct Kinds {
    digits: Kind,
    settled: Kind,
}

/// How often a guess was right, one off, and further off.
#[derive(Default)]
struct Distances {
    right: u64,
    below: u64,
    above: u64,
    further: u64,
}

impl Distances {
    fn count(&mut self, guess: u64, root: u64) {
        match guess.wrapping_sub(root) as i64 {
            0 => self.right += 1,
            -1 => self.below += 1,
            1 => self.above += 1,
            _ => self.further += 1,
        }
    }
}

fn corrections(report: &Report, kinds: &mut Kinds, steps: &Significand, inputs: Inputs) {
    let mut distances = Distances::default();
    for (digits, odd) in inputs.values.filter_map(significand) {
        let w = whole(digits, odd);
        let q = (steps.by_digits)(w);
        let g = whole_guess((steps.guess)(digits, odd));
        let p = g - 1;
        let settled = (steps.settle)(p, w);
        let near = g.abs_diff(q) <= 1;
        let expected = if near { q } else { zero_or(settled, q) };
        kinds.digits.compare(&[w], q, nearest_root(w));
        kinds.settled.compare(&[p, w], settled, expected);
        distances.count(g, q);
    }
    report.note(format_args!(
        "guess, {}: right {}, one below {}, one above {}, further off (digit by digit) {}",
        inputs.name, distances.right, distances.below, distances.above, distances.further
    ));
}

/// The second way for arguments that are no significand, those past 2^54 with
/// their lower digits only.
fn any_digits(report: &mut Report, plan: &Plan, steps: &Significand) {
    let mut kind = Kind::new("by_digits, any argument");
    let mut random = plan.random("any digits");
    let mut check = |w| kind.compare(&[w], (steps.by_digits)(w), nearest_root(w % (1 << 54)));
    for k in 0..64 {
        around_power(k).for_each(&mut check);
    }
    for _ in 0..plan.values(10_000_000) {
        check(random.up_to_digits(64));
    }
    report.add(kind);
}

/// Guesses close to the root. Those below it must lead to it. The root itself
/// need not: where it is rounded up, a part of its difference may be negative.
fn near_guesses(report: &mut Report, plan: &Plan, steps: &Significand) {
    let mut found = Kind::new("settle, 1 or 2 below the root");
    let mut other = Kind::new("settle, 3 or 4 below, at and above the root");
    let mut random = plan.random("near guesses");
    for _ in 0..plan.values(5_000_000) {
        let w = whole(random.bits() & DIGITS, random.below(2));
        let q = nearest_root(w);
        for p in [q - 2, q - 1] {
            found.compare(&[p, w], (steps.settle)(p, w), q);
        }
        for p in [q - 4, q - 3, q, q + 1, q + 2] {
            let settled = (steps.settle)(p, w);
            other.compare(&[p, w], settled, zero_or(settled, q));
        }
    }
    report.add(found);
    report.add(other);
}

/// Guesses and significands that are far off or out of range.
fn bad_guesses(report: &mut Report, plan: &Plan, steps: &Significand) {
    let mut kind = Kind::new("settle, bad guesses");
    let mut random = plan.random("bad guesses");
    let mut check = |p, w| {
        let settled = (steps.settle)(p, w);
        kind.compare(&[p, w], settled, zero_or(settled, nearest_root(w)));
    };
    for k in 0..64 {
        for p in around_power(k) {
            (0..64)
                .flat_map(around_power)
                .for_each(|w: u64| check(p, w));
        }
    }
    for _ in 0..plan.values(10_000_000) {
        let (p, w) = bad_guess(&mut random);
        check(p, w);
    }
    report.add(kind);
}

fn bad_guess(random: &mut Random) -> (u64, u64) {
    let w = whole(random.bits() & DIGITS, random.below(2));
    match random.below(5) {
        0 => (random.of_digits(53), w),
        1 => (random.up_to_digits(64), w),
        2 => (random.up_to_digits(64), random.up_to_digits(64)),
        3 => (nearest_root(w) ^ random.up_to_digits(40), w),
        _ => (nearest_root(w) ^ 1 << random.below(64), w),
    }
}

/// 2^k and its neighbours; 0 and the largest number are among those of 2^0.
fn around_power(k: u32) -> impl Iterator<Item = u64> {
    (0..5).map(move |i| (1u64 << k).wrapping_add(i).wrapping_sub(2))
}

/// The 52 digits of a finite x above zero after its leading one, and whether
/// its exponent is odd. A subnormal x is shifted up until it has a leading one.
fn significand(x: f64) -> Option<(u64, u64)> {
    if !(x > 0.0 && x.is_finite()) {
        return None;
    }
    let bits = x.to_bits();
    if bits <= DIGITS {
        let shift = bits.leading_zeros() - 11;
        return Some((bits << shift & DIGITS, u64::from(shift % 2)));
    }
    Some((bits & DIGITS, ((bits >> 52) + 1) % 2))
}

/// `1.digits`, or twice that where `odd` is odd, times 2^52.
fn whole(digits: u64, odd: u64) -> u64 {
    ((1 << 52) + digits) << (odd % 2)
}

/// The guess as the engine takes it: its digits as a number from 2^52 on.
fn whole_guess(guess: f64) -> u64 {
    (1 << 52) + (guess.to_bits() & DIGITS)
}

/// What to expect of a step that may answer 0 instead of `right`.
fn zero_or(answer: u64, right: u64) -> u64 {
    if answer == 0 { 0 } else { right }
}

#[cfg(test)]
mod tests {
    use super::*;
    use crate::engine::SIGNIFICAND;
    use crate::kinds::tests;

    fn fails(steps: &Significand) -> bool {
        tests::fails(|report, plan| compare(report, plan, steps))
    }

    fn poor_guess(_: u64, _: u64) -> f64 {
        1.0
    }

    fn lazy_settle(_: u64, _: u64) -> u64 {
        0
    }

    fn trusting_settle(p: u64, _: u64) -> u64 {
        p.wrapping_add(1)
    }

    fn root_below(w: u64) -> u64 {
        (u128::from(w % (1 << 54)) << 52).isqrt() as u64
    }

    fn root_of_all_digits(w: u64) -> u64 {
        nearest_root(w)
    }

    #[test]
    fn the_engine_passes() {
        assert!(!fails(&SIGNIFICAND));
    }

    #[test]
    fn a_poor_guess_is_no_failure() {
        assert!(!fails(&Significand {
            guess: poor_guess,
            ..SIGNIFICAND
        }));
    }

    #[test]
    fn wrong_steps_fail() {
        for wrong in [
            Significand {
                settle: lazy_settle,
                ..SIGNIFICAND
            },
            Significand {
                settle: trusting_settle,
                ..SIGNIFICAND
            },
            Significand {
                by_digits: root_below,
                ..SIGNIFICAND
            },
            Significand {
                by_digits: root_of_all_digits,
                ..SIGNIFICAND
            },
        ] {
            assert!(fails(&wrong));
        }
    }

    #[test]
    fn significands_are_those_of_the_value() {
        assert_eq!(significand(1.0), Some((0, 0)));
        assert_eq!(significand(2.0), Some((0, 1)));
        assert_eq!(significand(3.0), Some((1 << 51, 1)));
        assert_eq!(significand(0.25), Some((0, 0)));
        // 2^-1074, 3 * 2^-1074 and 2^-1023
        assert_eq!(significand(f64::from_bits(1)), Some((0, 0)));
        assert_eq!(significand(f64::from_bits(3)), Some((1 << 51, 1)));
        assert_eq!(significand(f64::from_bits(1 << 51)), Some((0, 1)));
        for x in [0.0, -0.0, -1.0, f64::INFINITY, f64::NAN] {
            assert_eq!(significand(x), None);
        }
    }
}
