//! Exact answers by whole numbers, for where Rust has none of its own or calls
//! the same C function as the engine.

use crate::random::{DIGITS, power_of_two};

/// The whole number nearest to the square root of `w * 2^52`. There is no tie:
/// the square of a half is no whole number.
pub fn nearest_root(w: u64) -> u64 {
    let v = u128::from(w) << 52;
    let root = v.isqrt();
    let past_half = v - root * root > root;
    (root + u128::from(past_half)) as u64
}

/// `a % b`, worked out exactly. Both Rust and the engine call C's `fmod` for
/// it, so that they agree says nothing of its value.
pub fn remainder(a: f64, b: f64) -> f64 {
    if a.is_nan() || b.is_nan() || a.is_infinite() || b == 0.0 {
        return f64::NAN;
    }
    if b.is_infinite() || a == 0.0 {
        return a;
    }
    let (m, e) = parts(a);
    let (n, f) = parts(b);
    let size = if f <= e {
        let rest = m % n * power_modulo((e - f) as u32, n) % n;
        rest as f64 * power_of_two(f)
    } else if f - e < 53 {
        (m % (n << (f - e))) as f64 * power_of_two(e)
    } else {
        a.abs()
    };
    size.copysign(a)
}

/// `m` and `e` of |x| = m * 2^e, for a finite x.
fn parts(x: f64) -> (u128, i32) {
    let exponent = (x.to_bits() >> 52 & 0x7FF) as i32;
    let digits = u128::from(x.to_bits() & DIGITS);
    if exponent == 0 {
        (digits, -1074)
    } else {
        (digits + (1 << 52), exponent - 1075)
    }
}

/// The remainder of 2^k by n, for an n of at most 53 binary digits.
fn power_modulo(k: u32, n: u128) -> u128 {
    (0..u32::BITS - k.leading_zeros())
        .rev()
        .fold(1 % n, |r, i| r * r * (1 + u128::from(k >> i & 1)) % n)
}

#[cfg(test)]
mod tests {
    use super::*;

    #[test]
    fn roots_are_the_nearest() {
        assert_eq!(nearest_root(0), 0);
        assert_eq!(nearest_root(1), 1 << 26);
        assert_eq!(nearest_root(1 << 52), 1 << 52);
        assert_eq!(nearest_root((1 << 54) - 2), (1 << 53) - 1);
        assert_eq!(nearest_root((1 << 54) - 1), 1 << 53);
        for w in [3, 12_345, (1 << 53) - 1, u64::MAX] {
            let (v, r) = (u128::from(w) << 52, u128::from(nearest_root(w)));
            assert!((2 * r - 1).pow(2) < 4 * v && 4 * v < (2 * r + 1).pow(2));
        }
    }

    #[test]
    fn remainders_are_exact() {
        let least = f64::from_bits(1);
        assert_eq!(remainder(7.5, 2.0), 1.5);
        assert_eq!(remainder(-7.5, 2.0), -1.5);
        assert_eq!(remainder(2.0, 7.5), 2.0);
        assert_eq!(remainder(-6.0, 3.0).to_bits(), (-0.0f64).to_bits());
        assert_eq!(remainder(least, f64::MAX), least);
        assert_eq!(remainder(f64::MAX, least), 0.0);
        // 2^1023 = 4^511 * 2, and 4 leaves 1 by 3.
        assert_eq!(remainder(power_of_two(1023), 3.0), 2.0);
        assert!(remainder(1.0, 0.0).is_nan());
    }
}
