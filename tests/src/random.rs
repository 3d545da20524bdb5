//! Seeded random numbers and floats.

use std::f64::consts::{PI, TAU};

/// The bits of a significand below its leading one.
pub const DIGITS: u64 = (1 << 52) - 1;

/// The special values with the sign plus.
const SPECIALS: [u64; 24] = [
    0,                     // zero
    1,                     // the smallest subnormal value
    2,                     //
    DIGITS,                // the largest subnormal value
    0x0010_0000_0000_0000, // the smallest normal value
    0x0010_0000_0000_0001, //
    0x3CB0_0000_0000_0000, // 2^-52
    0x3FD5_5555_5555_5555, // 1/3
    0x3FE0_0000_0000_0000, // 1/2
    0x3FEF_FFFF_FFFF_FFFF, // the value below 1
    0x3FF0_0000_0000_0000, // 1
    0x3FF0_0000_0000_0001, // the value above 1
    0x4000_0000_0000_0000, // 2
    0x4010_0000_0000_0000, // 4
    PI.to_bits(),
    TAU.to_bits(),
    0x4330_0000_0000_0000, // 2^52
    0x4340_0000_0000_0000, // 2^53
    0x7FEF_FFFF_FFFF_FFFE, //
    0x7FEF_FFFF_FFFF_FFFF, // the largest finite value
    0x7FF0_0000_0000_0000, // infinity
    0x7FF0_0000_0000_0001, // a signalling NaN
    0x7FF8_0000_0000_0000, // a quiet NaN
    0x7FFF_FFFF_FFFF_FFFF, // the last NaN
];

/// Infinities and NaNs: quiet, signalling and with all digits, of both signs.
pub const NOT_FINITE: [f64; 8] = [
    f64::INFINITY,
    f64::NEG_INFINITY,
    f64::NAN,
    f64::from_bits(0xFFF8_0000_0000_0000),
    f64::from_bits(0x7FF0_0000_0000_0001),
    f64::from_bits(0xFFF0_0000_0000_0001),
    f64::from_bits(0x7FFF_FFFF_FFFF_FFFF),
    f64::from_bits(0xFFFF_FFFF_FFFF_FFFF),
];

/// Each special value, with either sign.
pub fn specials() -> impl Iterator<Item = f64> + Clone {
    SPECIALS
        .iter()
        .flat_map(|&bits| [f64::from_bits(bits), f64::from_bits(bits | 1 << 63)])
}

/// 2 to the power `e`, for an `e` from -1074 to 1023.
pub fn power_of_two(e: i32) -> f64 {
    if e < -1022 {
        f64::from_bits(1 << (e + 1074))
    } else {
        f64::from_bits(((e + 1023) as u64) << 52)
    }
}

/// `x` times 2^e, or the largest value of its sign where that is larger.
pub fn product(x: f64, e: i32) -> f64 {
    let e = e.clamp(-2000, 2000);
    let half = e / 2;
    (x * power_of_two(half) * power_of_two(e - half)).clamp(-f64::MAX, f64::MAX)
}

/// The value `steps` above `x` among the values of the format, or below it
/// for a negative `steps`, but not past infinity. A NaN stays.
pub fn moved(x: f64, steps: i64) -> f64 {
    if steps == 0 || x.is_nan() {
        return x;
    }
    let infinity = place(f64::INFINITY);
    let place = place(x).saturating_add(steps).clamp(-infinity, infinity);
    at_place(place)
}

/// The place of a value that is no NaN among the values of the format, counted
/// from zero. Both zeros have place 0.
fn place(x: f64) -> i64 {
    let bits = x.to_bits() as i64;
    if bits < 0 { i64::MIN - bits } else { bits }
}

/// The value at this place.
fn at_place(place: i64) -> f64 {
    let size = f64::from_bits(place.unsigned_abs());
    if place < 0 { -size } else { size }
}

/// A value from `a` towards `b` at which `test` says what it says at `a`, and
/// whose neighbour towards `b` it judges otherwise. It judges `a` and `b`
/// differently, and neither is a NaN.
pub fn turn(a: f64, b: f64, test: impl Fn(f64) -> bool) -> f64 {
    let at_a = test(a);
    let (mut near, mut far) = (place(a), place(b));
    while near.abs_diff(far) > 1 {
        let middle = near.midpoint(far);
        if test(at_place(middle)) == at_a {
            near = middle;
        } else {
            far = middle;
        }
    }
    at_place(near)
}

/// `x` and its neighbours up to `steps` away.
pub fn around(x: f64, steps: i64) -> impl Iterator<Item = f64> {
    (-steps..=steps).map(move |k| moved(x, k))
}

/// The generator splitmix64.
#[derive(Clone)]
pub struct Random {
    state: u64,
}

impl Random {
    pub fn new(seed: u64) -> Self {
        Self { state: seed }
    }

    /// 64 random bits.
    pub fn bits(&mut self) -> u64 {
        self.state = self.state.wrapping_add(0x9E37_79B9_7F4A_7C15);
        let z = self.state;
        let z = (z ^ (z >> 30)).wrapping_mul(0xBF58_476D_1CE4_E5B9);
        let z = (z ^ (z >> 27)).wrapping_mul(0x94D0_49BB_1331_11EB);
        z ^ (z >> 31)
    }

    /// A whole number below `n`.
    pub fn below(&mut self, n: u64) -> u64 {
        ((u128::from(self.bits()) * u128::from(n)) >> 64) as u64
    }

    /// A whole number of exactly `n` binary digits, for an `n` from 1 to 64.
    pub fn of_digits(&mut self, n: u32) -> u64 {
        (self.bits() | 1 << 63) >> (64 - n)
    }

    /// A whole number of any count of binary digits up to `n`, each count as
    /// likely as another.
    pub fn up_to_digits(&mut self, n: u32) -> u64 {
        let count = 1 + self.below(u64::from(n)) as u32;
        self.of_digits(count)
    }

    /// Any bit pattern: about one in 2048 is subnormal, and as many are NaN.
    pub fn pattern(&mut self) -> f64 {
        f64::from_bits(self.bits())
    }

    /// A normal value, with each exponent as likely as another.
    pub fn normal(&mut self) -> f64 {
        let exponent = 1 + self.below(2046);
        let digits = self.bits() & DIGITS;
        self.signed(exponent << 52 | digits)
    }

    /// A subnormal value, with each count of binary digits as likely as
    /// another.
    pub fn subnormal(&mut self) -> f64 {
        let bits = self.up_to_digits(52);
        self.signed(bits)
    }

    /// A power of two of the format.
    pub fn power_of_two(&mut self) -> f64 {
        let e = self.below(2098) as i32 - 1074;
        self.signed(power_of_two(e).to_bits())
    }

    /// One of the special values.
    pub fn special(&mut self) -> f64 {
        let place = self.below(SPECIALS.len() as u64) as usize;
        self.signed(SPECIALS[place])
    }

    /// A value from 0 up to but not 1.
    pub fn fraction(&mut self) -> f64 {
        (self.bits() >> 11) as f64 * power_of_two(-53)
    }

    /// A value of everyday size with few digits, so that sums, products and
    /// remainders are often exact.
    pub fn everyday(&mut self) -> f64 {
        let whole = self.up_to_digits(12) as f64;
        let x = whole / 16.0;
        if self.flip() { -x } else { x }
    }

    /// A value at most `steps` from `x`.
    pub fn near(&mut self, x: f64, steps: u64) -> f64 {
        let k = self.below(2 * steps + 1) as i64 - steps as i64;
        moved(x, k)
    }

    /// A value of any of these kinds.
    pub fn any(&mut self) -> f64 {
        match self.below(8) {
            0 => self.pattern(),
            1 | 2 => self.normal(),
            3 => self.subnormal(),
            4 => self.power_of_two(),
            5 => self.special(),
            6 => self.everyday(),
            _ => {
                let x = self.special();
                self.near(x, 4)
            }
        }
    }

    /// A value of any kind that is no NaN.
    pub fn number(&mut self) -> f64 {
        loop {
            let x = self.any();
            if !x.is_nan() {
                return x;
            }
        }
    }

    /// A value of any kind that is finite.
    pub fn finite(&mut self) -> f64 {
        loop {
            let x = self.any();
            if x.is_finite() {
                return x;
            }
        }
    }

    /// A value to compare with `x`: often it, its opposite or a neighbour.
    pub fn rival(&mut self, x: f64) -> f64 {
        match self.below(6) {
            0 => x,
            1 => -x,
            2 => self.near(x, 2),
            3 => self.near(-x, 2),
            _ => self.any(),
        }
    }

    /// True half of the time.
    pub fn flip(&mut self) -> bool {
        self.bits() >> 63 == 1
    }

    fn signed(&mut self, bits: u64) -> f64 {
        f64::from_bits(bits | self.bits() & 1 << 63)
    }
}

#[cfg(test)]
mod tests {
    use super::*;
    use std::num::FpCategory;

    #[test]
    fn splitmix64_has_its_published_numbers() {
        let mut random = Random::new(1_234_567);
        assert_eq!(random.bits(), 6_457_827_717_110_365_317);
        assert_eq!(random.bits(), 3_203_168_211_198_807_973);
    }

    #[test]
    fn steps_cross_zero_and_stop_at_infinity() {
        assert_eq!(moved(0.0, 1).to_bits(), 1);
        assert_eq!(moved(0.0, -1).to_bits(), 1 << 63 | 1);
        assert_eq!(moved(f64::from_bits(1), -2), -f64::from_bits(1));
        assert_eq!(moved(-0.0, 0).to_bits(), 1 << 63);
        assert_eq!(moved(f64::MAX, 1), f64::INFINITY);
        assert_eq!(moved(f64::MAX, 9), f64::INFINITY);
        assert_eq!(moved(f64::NEG_INFINITY, 1), f64::MIN);
        assert_eq!(moved(1.0, 1), 1.0 + f64::EPSILON);
        assert!(moved(f64::NAN, 1).is_nan());
    }

    #[test]
    fn a_turn_is_found_to_the_last_digit() {
        assert_eq!(turn(0.0, 9.0, |x| x < 1.5), moved(1.5, -1));
        assert_eq!(turn(9.0, 0.0, |x| x < 1.5), 1.5);
        assert_eq!(turn(-2.0, f64::MAX, |x| x <= 0.0), 0.0);
        assert_eq!(turn(f64::MIN, f64::MAX, |x| x < -1.0), moved(-1.0, -1));
        assert_eq!(turn(1.0, moved(1.0, 1), |x| x == 1.0), 1.0);
    }

    #[test]
    fn powers_of_two_are_exact() {
        assert_eq!(power_of_two(-1074).to_bits(), 1);
        for e in -1074..1023 {
            assert_eq!(power_of_two(e) * 2.0, power_of_two(e + 1));
        }
        assert_eq!(power_of_two(0), 1.0);
    }

    #[test]
    fn products_stay_finite() {
        assert_eq!(product(3.0, -1), 1.5);
        assert_eq!(product(1.5, 1023), 1.5 * power_of_two(1023));
        assert_eq!(product(-3.0, 1023), f64::MIN);
        assert_eq!(product(1.0, -1074).to_bits(), 1);
        assert_eq!(product(power_of_two(-1074), 2097), power_of_two(926));
    }

    #[test]
    fn each_generator_gives_its_kind() {
        let mut random = Random::new(1);
        for _ in 0..1000 {
            assert_eq!(random.normal().classify(), FpCategory::Normal);
            assert_eq!(random.subnormal().classify(), FpCategory::Subnormal);
            assert!(!random.number().is_nan());
            assert!(random.finite().is_finite());
            assert_eq!(random.of_digits(53).leading_zeros(), 11);
            assert!(random.below(3) < 3);
        }
    }

    #[test]
    fn a_value_of_any_kind_is_each_of_them() {
        let mut random = Random::new(1);
        let values: Vec<f64> = (0..10_000).map(|_| random.any()).collect();
        for kind in [
            FpCategory::Nan,
            FpCategory::Infinite,
            FpCategory::Zero,
            FpCategory::Subnormal,
            FpCategory::Normal,
        ] {
            assert!(values.iter().any(|x| x.classify() == kind), "{kind:?}");
        }
    }
}
