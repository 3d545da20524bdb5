//! Inputs for the square root, those with the hardest roundings among them.

use crate::plan::Plan;
use crate::random::{DIGITS, Random, around, moved, power_of_two, specials};

/// Inputs of one kind.
pub struct Inputs {
    pub name: &'static str,
    pub values: Box<dyn Iterator<Item = f64>>,
}

/// Inputs of every kind.
pub fn all(plan: &Plan) -> Vec<Inputs> {
    let random = |name| plan.random(name);
    let times = |quick| plan.values(quick);
    vec![
        Inputs {
            name: "special values",
            values: Box::new(specials()),
        },
        Inputs {
            name: "powers of two and neighbours",
            values: Box::new((-1074..=1023).flat_map(|e| around(power_of_two(e), 8))),
        },
        Inputs {
            name: "random patterns",
            values: repeated(times(200_000_000), random("patterns"), Random::pattern),
        },
        Inputs {
            name: "subnormals",
            values: repeated(times(40_000_000), random("subnormals"), |random| {
                random.subnormal().abs()
            }),
        },
        Inputs {
            name: "neighbours of squares of 26 digits",
            values: groups(times(5_000_000), random("squares of 26"), |random| {
                square(random, 26)
            }),
        },
        Inputs {
            name: "neighbours of squares of 53 digits",
            values: groups(times(5_000_000), random("squares of 53"), |random| {
                square(random, 53)
            }),
        },
        Inputs {
            name: "both sides of squares of midpoints",
            values: groups(times(25_000_000), random("midpoints"), |random| {
                let s = 2 * random.of_digits(53) + 1;
                sides(random, s)
            }),
        },
        Inputs {
            name: "both sides of the nearest squares of midpoints",
            values: hardest(times(500_000), random("hardest")),
        },
    ]
}

fn repeated(
    times: u64,
    mut random: Random,
    value: fn(&mut Random) -> f64,
) -> Box<dyn Iterator<Item = f64>> {
    Box::new((0..times).map(move |_| value(&mut random)))
}

fn groups<const N: usize>(
    times: u64,
    mut random: Random,
    group: fn(&mut Random) -> [f64; N],
) -> Box<dyn Iterator<Item = f64>> {
    Box::new((0..times).flat_map(move |_| group(&mut random)))
}

/// The square of a random whole number of this many binary digits, rounded
/// down, with its neighbours.
fn square(random: &mut Random, digits: u32) -> [f64; 9] {
    let k = u128::from(random.of_digits(digits));
    let x = rescaled(random, rounded_down(k * k));
    [-4, -3, -2, -1, 0, 1, 2, 3, 4].map(|steps| moved(x, steps))
}

/// The values next below and next above (s / 2)^2, for an odd `s` of 54 binary
/// digits: s / 2 lies halfway between two values, and its square is none.
fn sides(random: &mut Random, s: u64) -> [f64; 2] {
    let s = u128::from(s);
    let below = rescaled(random, rounded_down(s * s));
    [below, moved(below, 1)]
}

/// The sides of those s^2 that lie closest to a value: s^2 leaves a small
/// number, or a small negative one, by the unit in the last place of its value.
fn hardest(times: u64, mut random: Random) -> Box<dyn Iterator<Item = f64>> {
    let c = (0..times).flat_map(|i| [8 * i + 1, (8 * i + 7).wrapping_neg()]);
    let s = c.flat_map(|c| [54, 55].into_iter().flat_map(move |n| halfway(c, n)));
    Box::new(s.flat_map(move |s| sides(&mut random, s)))
}

/// The odd `s` of 54 binary digits whose square has n + 53 binary digits and
/// is `c` modulo 2^n, for a `c` that is 1 modulo 8.
fn halfway(c: u64, n: u32) -> impl Iterator<Item = u64> {
    let s = root_modulo(c, n);
    let half = 1 << (n - 1);
    [s, s.wrapping_neg(), s + half, half.wrapping_sub(s)]
        .map(|s: u64| s % (1 << n))
        .into_iter()
        .filter(move |&s| {
            let square = u128::from(s) * u128::from(s);
            s >> 53 == 1 && square >> (n + 52) == 1
        })
}

/// An odd `s` below 2^n whose square is `c` modulo 2^n, for a `c` that is 1
/// modulo 8. The square is right modulo 2^3, and each step adds a digit.
fn root_modulo(c: u64, n: u32) -> u64 {
    let s = (3..n).fold(1u64, |s, k| {
        let wrong = (s.wrapping_mul(s) ^ c) >> k & 1;
        s.wrapping_add(wrong << (k - 1))
    });
    s % (1 << n)
}

/// `n` rounded down to 53 binary digits.
fn rounded_down(n: u128) -> f64 {
    let surplus = (u128::BITS - n.leading_zeros()).saturating_sub(53);
    (n >> surplus) as f64 * power_of_two(surplus as i32)
}

/// A normal `x` times a random even power of two that leaves it normal.
fn rescaled(random: &mut Random, x: f64) -> f64 {
    let parity = x.to_bits() >> 52 & 1;
    let exponent = 2 * random.below(1023) + 2 - parity;
    f64::from_bits(exponent << 52 | x.to_bits() & DIGITS)
}

#[cfg(test)]
mod tests {
    use super::*;

    #[test]
    fn roots_modulo_powers_of_two() {
        for c in [1, 9, 17, 7u64.wrapping_neg()] {
            for n in [54, 55] {
                let s = root_modulo(c, n);
                assert_eq!(s.wrapping_mul(s) % (1 << n), c % (1 << n));
            }
        }
    }

    #[test]
    fn halfway_squares_are_close_to_a_value() {
        let found: Vec<u64> = (0..50).flat_map(|i| halfway(8 * i + 1, 55)).collect();
        assert!(!found.is_empty());
        for s in found {
            let square = u128::from(s) * u128::from(s);
            assert_eq!(u128::BITS - square.leading_zeros(), 108);
            assert!(square % (1 << 55) < 8 * 50);
        }
    }

    #[test]
    fn sides_enclose_the_midpoint() {
        let mut random = Random::new(1);
        for _ in 0..100 {
            let s = 2 * random.of_digits(53) + 1;
            let [below, above] = sides(&mut random, s);
            let (r, next) = (below.sqrt(), above.sqrt());
            assert_eq!(moved(r, 1), next);
            assert_eq!(r.to_bits() & DIGITS, (s / 2) & DIGITS);
        }
    }

    #[test]
    fn scaling_keeps_the_value_normal_and_the_parity() {
        let mut random = Random::new(1);
        for _ in 0..10_000 {
            let x = random.normal().abs();
            let y = rescaled(&mut random, x);
            assert!(y.is_normal());
            assert_eq!((x.to_bits() >> 52) % 2, (y.to_bits() >> 52) % 2);
        }
    }

    #[test]
    fn rounding_down_keeps_53_digits() {
        assert_eq!(rounded_down(9), 9.0);
        assert_eq!(rounded_down((1 << 54) - 1), ((1u64 << 54) - 2) as f64);
    }
}
