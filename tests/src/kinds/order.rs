//! `order_key` against `f64::total_cmp`.

use crate::kinds::pairs;
use crate::plan::Plan;
use crate::report::{Kind, Report};

pub fn compare(report: &mut Report, plan: &Plan, key: impl Fn(f64) -> u64) {
    let mut numbers = Kind::new("order_key, total_cmp of numbers");
    let mut nans = Kind::new("order_key, a NaN has the largest");
    let mut above = Kind::new("order_key, a number is below a NaN");
    for (a, b) in pairs(plan, "order_key", plan.values(25_000_000)) {
        match (a.is_nan(), b.is_nan()) {
            (false, false) => {
                numbers.compare(&[a, b], key(a).cmp(&key(b)), a.total_cmp(&b));
            }
            (true, true) => {
                nans.compare(&[a], key(a), u64::MAX);
                nans.compare(&[b], key(b), u64::MAX);
            }
            (true, false) => above.compare(&[a, b], key(b) < key(a), true),
            (false, true) => above.compare(&[a, b], key(a) < key(b), true),
        }
    }
    report.add(numbers);
    report.add(nans);
    report.add(above);
}

#[cfg(test)]
mod tests {
    use super::*;
    use crate::kinds::tests;

    fn right_key(x: f64) -> u64 {
        let bits = x.to_bits();
        match (x.is_nan(), bits >> 63) {
            (true, _) => u64::MAX,
            (false, 0) => bits | 1 << 63,
            (false, _) => !bits,
        }
    }

    fn fails(key: impl Fn(f64) -> u64) -> bool {
        tests::fails(|report, plan| compare(report, plan, key))
    }

    #[test]
    fn the_right_key_passes() {
        assert!(!fails(right_key));
    }

    #[test]
    fn wrong_keys_fail() {
        assert!(fails(f64::to_bits));
        assert!(fails(|x| right_key(x + 0.0)));
        assert!(fails(|x| if x.is_nan() { 0 } else { right_key(x) }));
        assert!(fails(|x| right_key(x) >> 1));
    }
}
