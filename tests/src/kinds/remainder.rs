//! `rem_euclid` against Rust's and against whole numbers.

use std::f64::consts::TAU;

use crate::kinds::pairs;
use crate::plan::Plan;
use crate::random::Random;
use crate::report::{Kind, Report};
use crate::whole;

pub fn compare(report: &mut Report, plan: &Plan, rem_euclid: impl Fn(f64, f64) -> f64) {
    let mut rust = Kind::new("rem_euclid, Rust");
    let mut exact = Kind::new("rem_euclid, whole numbers");
    let mut random = plan.random("remainders");
    let chosen = (0..plan.values(8_000_000)).map(move |_| operands(&mut random));
    for (a, b) in pairs(plan, "rem_euclid", plan.values(4_000_000)).chain(chosen) {
        let got = rem_euclid(a, b);
        rust.compare(&[a, b], got, a.rem_euclid(b));
        exact.compare(&[a, b], got, expected(a, b));
    }
    report.add(rust);
    report.add(exact);
}

/// The remainder of whole numbers, and the one sum that is rounded.
fn expected(a: f64, b: f64) -> f64 {
    let r = whole::remainder(a, b);
    if r < 0.0 { r + b.abs() } else { r }
}

/// Operands whose remainder is an angle, zero, or rounded up to the divisor.
fn operands(random: &mut Random) -> (f64, f64) {
    match random.below(6) {
        0 => (random.everyday(), TAU),
        1 => (-random.normal().abs().min(1e-3), TAU),
        2 => (random.subnormal(), random.subnormal()),
        3 => (random.everyday(), random.everyday()),
        4 => multiple(random),
        _ => (random.subnormal(), random.any()),
    }
}

/// A multiple of the divisor, exact unless it is rounded, or its neighbour.
fn multiple(random: &mut Random) -> (f64, f64) {
    let b = random.any();
    let a = random.everyday() * 16.0 * b;
    (random.near(a, 1), b)
}

#[cfg(test)]
mod tests {
    use super::*;
    use crate::kinds::tests;

    fn fails(rem_euclid: impl Fn(f64, f64) -> f64) -> bool {
        tests::fails(|report, plan| compare(report, plan, rem_euclid))
    }

    #[test]
    fn the_right_remainder_passes() {
        assert!(!fails(f64::rem_euclid));
    }

    #[test]
    fn wrong_remainders_fail() {
        assert!(fails(|a, b| a % b));
        assert!(fails(|a, b| a.rem_euclid(b) + 0.0));
        assert!(fails(|a, b| a - b.abs() * (a / b.abs()).floor()));
        assert!(fails(|a, b| {
            let r = a.rem_euclid(b);
            if r == b.abs() { 0.0 } else { r }
        }));
    }
}
