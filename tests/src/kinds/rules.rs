//! `min`, `max`, `abs`, `clamp` and `is_finite` against Rust's and csx's.

use std::cmp::Ordering;

use crate::kinds::pairs;
use crate::plan::Plan;
use crate::random::{Random, specials};
use crate::report::{Kind, Report};

/// A minimum or maximum, and what it is compared with.
struct Choice {
    name: &'static str,
    rule: fn(f64, f64) -> f64,
    csx: fn(f64, f64) -> f64,
    rust: fn(f64, f64) -> f64,
}

pub fn min(report: &mut Report, plan: &Plan, min: impl Fn(f64, f64) -> f64) {
    let choice = Choice {
        name: "min",
        rule: |a, b| left_unless(a, b, Ordering::Greater),
        csx: csx::port::min,
        rust: f64::min,
    };
    compare_choice(report, plan, &choice, min);
}

pub fn max(report: &mut Report, plan: &Plan, max: impl Fn(f64, f64) -> f64) {
    let choice = Choice {
        name: "max",
        rule: |a, b| left_unless(a, b, Ordering::Less),
        csx: csx::port::max,
        rust: f64::max,
    };
    compare_choice(report, plan, &choice, max);
}

/// The rule of both: `b` where `a` is in this order to it, otherwise `a`; of a
/// NaN and a number the number. So of two equal zeros it is the left one.
fn left_unless(a: f64, b: f64, order: Ordering) -> f64 {
    match a.partial_cmp(&b) {
        Some(found) if found == order => b,
        Some(_) => a,
        None if a.is_nan() => b,
        None => a,
    }
}

/// What is counted of pairs of zeros.
pub const UNLIKE_ZEROS: &str = "zeros of unlike sign";
pub const OTHER_ZERO: &str = "Rust keeps the other zero";

/// Which of two zeros Rust keeps is not set. The engine keeps the left one, and
/// so does csx with the feature `port`: a listed difference, which is counted.
fn compare_choice(
    report: &mut Report,
    plan: &Plan,
    choice: &Choice,
    engine: impl Fn(f64, f64) -> f64,
) {
    let Choice {
        name,
        rule,
        csx,
        rust,
    } = *choice;
    let mut by_rule = Kind::new(format!("{name}, the rule"));
    let mut by_csx = Kind::new(format!("{name}, csx"));
    let mut by_rust = Kind::new(format!("{name}, Rust, but for zeros of unlike sign"));
    let (mut zeros, mut other) = (0u64, 0u64);
    for (a, b) in pairs(plan, name, plan.values(25_000_000)) {
        let got = engine(a, b);
        let unlike = unlike_zeros(a, b);
        by_rule.compare(&[a, b], got, rule(a, b));
        if cfg!(feature = "port") || !unlike {
            by_csx.compare(&[a, b], got, csx(a, b));
        }
        if unlike {
            zeros += 1;
            other += u64::from(rust(a, b).to_bits() != rule(a, b).to_bits());
        } else {
            by_rust.compare(&[a, b], got, rust(a, b));
        }
    }
    report.add(by_rule);
    report.add(by_csx);
    report.add(by_rust);
    report.note(format_args!(
        "{name} of {UNLIKE_ZEROS}: {zeros}; {OTHER_ZERO} in {other}, a listed difference"
    ));
    report.count(UNLIKE_ZEROS, zeros);
    report.count(OTHER_ZERO, other);
}

fn unlike_zeros(a: f64, b: f64) -> bool {
    a == 0.0 && b == 0.0 && a.to_bits() != b.to_bits()
}

pub fn abs(report: &mut Report, plan: &Plan, abs: impl Fn(f64) -> f64) {
    let mut kind = Kind::new("abs, Rust");
    for x in singles(plan, "abs") {
        kind.compare(&[x], abs(x), x.abs());
    }
    report.add(kind);
}

pub fn is_finite(report: &mut Report, plan: &Plan, is_finite: impl Fn(f64) -> bool) {
    let mut kind = Kind::new("is_finite, Rust");
    for x in singles(plan, "is_finite") {
        kind.compare(&[x], is_finite(x), x.is_finite());
    }
    report.add(kind);
}

fn singles(plan: &Plan, kind: &str) -> impl Iterator<Item = f64> {
    let mut random = plan.random(kind);
    specials().chain((0..plan.values(20_000_000)).map(move |_| random.any()))
}

/// Rust asks for bounds that are no NaN, the lower one not above the other.
pub fn clamp(report: &mut Report, plan: &Plan, clamp: impl Fn(f64, f64, f64) -> f64) {
    let mut kind = Kind::new("clamp, Rust");
    let mut random = plan.random("clamp");
    let mut check = |x: f64, lo, hi| {
        if lo <= hi {
            kind.compare(&[x, lo, hi], clamp(x, lo, hi), x.clamp(lo, hi));
        }
    };
    for lo in specials() {
        for hi in specials() {
            specials().for_each(|x| check(x, lo, hi));
        }
    }
    for _ in 0..plan.values(20_000_000) {
        let (lo, hi) = bounds(&mut random);
        let x = if random.flip() { lo } else { hi };
        check(random.rival(x), lo, hi);
    }
    report.add(kind);
}

fn bounds(random: &mut Random) -> (f64, f64) {
    let a = random.number();
    let b = random.rival(a);
    match a.partial_cmp(&b) {
        Some(Ordering::Greater) => (b, a),
        Some(_) => (a, b),
        None => (a, a),
    }
}

#[cfg(test)]
mod tests {
    use super::*;
    use crate::kinds::tests::fails;

    fn left_min(a: f64, b: f64) -> f64 {
        if b < a || a.is_nan() { b } else { a }
    }

    fn left_max(a: f64, b: f64) -> f64 {
        if a < b || a.is_nan() { b } else { a }
    }

    #[test]
    fn the_right_functions_pass() {
        assert!(!fails(|r, p| min(r, p, left_min)));
        assert!(!fails(|r, p| max(r, p, left_max)));
        assert!(!fails(|r, p| abs(r, p, f64::abs)));
        assert!(!fails(|r, p| is_finite(r, p, f64::is_finite)));
        assert!(!fails(|r, p| clamp(r, p, f64::clamp)));
    }

    #[test]
    fn a_choice_of_the_right_zero_fails() {
        assert!(fails(|r, p| min(r, p, |a, b| left_min(b, a))));
        assert!(fails(|r, p| max(r, p, |a, b| left_max(b, a))));
    }

    #[test]
    fn a_choice_that_keeps_a_nan_fails() {
        assert!(fails(|r, p| min(r, p, |a, b| if b < a { b } else { a })));
        assert!(fails(|r, p| max(r, p, |a, b| if a < b { b } else { a })));
    }

    #[test]
    fn wrong_rules_for_one_value_fail() {
        assert!(fails(|r, p| abs(r, p, |x| if x < 0.0 { -x } else { x })));
        assert!(fails(|r, p| is_finite(r, p, |x| !x.is_nan())));
        assert!(fails(|r, p| is_finite(r, p, |x| x.abs() < f64::MAX)));
        assert!(fails(|r, p| clamp(r, p, |x, lo, hi| x.max(lo).min(hi))));
        assert!(fails(|r, p| clamp(r, p, |x, lo, hi| {
            if x <= lo { lo } else { x.clamp(lo, hi) }
        })));
    }
}
