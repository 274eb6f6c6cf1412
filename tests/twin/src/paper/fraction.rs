//! Exact fractions of 128-bit whole numbers.

use std::cmp::Ordering;
use std::ops::{Add, Div, Mul, Sub};

/// A fraction whose lower part is above 0.
#[derive(Clone, Copy, Debug)]
pub struct Fraction {
    upper: i128,
    lower: i128,
}

/// Parts below this may be multiplied by one another without leaving 128 bits.
const ROOM: i128 = 1 << 62;

impl Fraction {
    /// A decimal as it is printed: "1.155", "206_000".
    pub const fn decimal(text: &str) -> Fraction {
        let bytes = text.as_bytes();
        let (mut upper, mut lower, mut at, mut behind_point) = (0, 1, 0, false);
        while at < bytes.len() {
            match bytes[at] {
                b'.' => behind_point = true,
                b'_' => {}
                digit => {
                    upper = upper * 10 + (digit - b'0') as i128;
                    if behind_point {
                        lower *= 10;
                    }
                }
            }
            at += 1;
        }
        Fraction { upper, lower }
    }

    /// A whole number of parts, each one of `lower`.
    pub fn of(upper: i128, lower: i128) -> Fraction {
        assert!(lower > 0);
        Fraction { upper, lower }
    }

    pub fn whole(number: i128) -> Fraction {
        Fraction::of(number, 1)
    }

    /// The least whole number not below the fraction.
    pub fn up(self) -> i128 {
        self.upper.div_euclid(self.lower) + i128::from(self.upper.rem_euclid(self.lower) != 0)
    }

    /// The greatest whole number not above the fraction.
    pub fn down(self) -> i128 {
        self.upper.div_euclid(self.lower)
    }

    pub fn is_whole(self) -> bool {
        self.upper.rem_euclid(self.lower) == 0
    }

    /// The least whole number above 0 that makes the fraction whole when multiplied with it.
    pub fn least_multiplier(self) -> i128 {
        self.lower / common_divisor(self.upper.unsigned_abs(), self.lower.unsigned_abs()) as i128
    }

    pub fn least(self, other: Fraction) -> Fraction {
        if self <= other { self } else { other }
    }

    // Shortening only the long ones keeps a million calls quick.
    fn shortened(self) -> Fraction {
        if self.upper.abs() < ROOM && self.lower < ROOM {
            return self;
        }
        let divisor = common_divisor(self.upper.unsigned_abs(), self.lower.unsigned_abs()) as i128;
        Fraction { upper: self.upper / divisor, lower: self.lower / divisor }
    }
}

fn common_divisor(mut one: u128, mut other: u128) -> u128 {
    while other != 0 {
        (one, other) = (other, one % other);
    }
    one
}

fn times(one: i128, other: i128) -> i128 {
    one.checked_mul(other).expect("a fraction left 128 bits")
}

impl Add for Fraction {
    type Output = Fraction;
    fn add(self, other: Fraction) -> Fraction {
        if self.lower == other.lower {
            return Fraction { upper: self.upper + other.upper, lower: self.lower }.shortened();
        }
        let upper = times(self.upper, other.lower) + times(other.upper, self.lower);
        Fraction { upper, lower: times(self.lower, other.lower) }.shortened()
    }
}

impl Sub for Fraction {
    type Output = Fraction;
    fn sub(self, other: Fraction) -> Fraction {
        self + Fraction { upper: -other.upper, lower: other.lower }
    }
}

impl Mul for Fraction {
    type Output = Fraction;
    fn mul(self, other: Fraction) -> Fraction {
        Fraction { upper: times(self.upper, other.upper), lower: times(self.lower, other.lower) }.shortened()
    }
}

impl Div for Fraction {
    type Output = Fraction;
    fn div(self, other: Fraction) -> Fraction {
        assert!(other.upper > 0);
        Fraction { upper: times(self.upper, other.lower), lower: times(self.lower, other.upper) }.shortened()
    }
}

impl PartialEq for Fraction {
    fn eq(&self, other: &Fraction) -> bool {
        times(self.upper, other.lower) == times(other.upper, self.lower)
    }
}

impl PartialOrd for Fraction {
    fn partial_cmp(&self, other: &Fraction) -> Option<Ordering> {
        times(self.upper, other.lower).partial_cmp(&times(other.upper, self.lower))
    }
}

/// A decimal written as the paper prints it.
macro_rules! d {
    ($decimal:literal) => {{
        const WRITTEN: $crate::paper::fraction::Fraction =
            $crate::paper::fraction::Fraction::decimal(stringify!($decimal));
        WRITTEN
    }};
}
pub(crate) use d;
