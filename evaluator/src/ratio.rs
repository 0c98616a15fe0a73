//! Exact fractions, and the few whole-number functions that go with them.

use std::ops::{Add, Div, Mul, Sub};

pub fn gcd(a: i128, b: i128) -> i128 {
    if b == 0 { a.abs() } else { gcd(b, a % b) }
}

pub fn lcm(a: i128, b: i128) -> i128 {
    a / gcd(a, b) * b
}

pub fn factorial(n: usize) -> i128 {
    (1..=n as i128).product()
}

/// A fraction in lowest terms with a positive denominator, so that equal fractions are equal records.
#[derive(Clone, Copy, PartialEq, Eq, Debug)]
pub struct Ratio {
    pub numerator: i128,
    pub denominator: i128,
}

impl Ratio {
    pub fn new(numerator: i128, denominator: i128) -> Ratio {
        assert!(denominator != 0, "a fraction over 0");
        let common = gcd(numerator, denominator) * denominator.signum();
        Ratio { numerator: numerator / common, denominator: denominator / common }
    }
}

impl From<i128> for Ratio {
    fn from(whole: i128) -> Ratio {
        Ratio { numerator: whole, denominator: 1 }
    }
}

impl Add for Ratio {
    type Output = Ratio;
    fn add(self, other: Ratio) -> Ratio {
        let common = lcm(self.denominator, other.denominator);
        let left = self.numerator * (common / self.denominator);
        let right = other.numerator * (common / other.denominator);
        Ratio::new(left + right, common)
    }
}

impl Sub for Ratio {
    type Output = Ratio;
    fn sub(self, other: Ratio) -> Ratio {
        self + Ratio::new(-other.numerator, other.denominator)
    }
}

impl Mul for Ratio {
    type Output = Ratio;
    fn mul(self, other: Ratio) -> Ratio {
        Ratio::new(self.numerator * other.numerator, self.denominator * other.denominator)
    }
}

impl Div for Ratio {
    type Output = Ratio;
    fn div(self, other: Ratio) -> Ratio {
        Ratio::new(self.numerator * other.denominator, self.denominator * other.numerator)
    }
}

#[cfg(test)]
mod tests {
    use super::*;

    #[test]
    fn fractions_are_kept_in_lowest_terms() {
        assert_eq!(Ratio::new(6, -4), Ratio { numerator: -3, denominator: 2 });
        assert_eq!(Ratio::new(0, -7), Ratio::from(0));
    }

    #[test]
    fn the_four_operations() {
        let (a, b) = (Ratio::new(1, 6), Ratio::new(-3, 4));
        assert_eq!(a + b, Ratio::new(-7, 12));
        assert_eq!(a - b, Ratio::new(11, 12));
        assert_eq!(a * b, Ratio::new(-1, 8));
        assert_eq!(a / b, Ratio::new(-2, 9));
    }

    #[test]
    #[should_panic]
    fn an_overflow_stops_the_program() {
        let _ = Ratio::from(i128::MAX) + Ratio::from(std::hint::black_box(1));
    }

    #[test]
    #[should_panic]
    fn a_fraction_over_zero_stops_the_program() {
        let _ = Ratio::from(1) / Ratio::from(std::hint::black_box(0));
    }

    #[test]
    fn factorials() {
        assert_eq!(factorial(0), 1);
        assert_eq!(factorial(9), 362_880);
    }
}
