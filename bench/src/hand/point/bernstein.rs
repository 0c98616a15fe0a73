//! Blended numbers, and their Bernstein sums over all local places.

use super::place::Placing;
use super::{Fraction, Sums};
use crate::hand::shape::Shape;
use crate::hand::{Refusal, refuse};
use std::ops::Mul;

pub const FACTORIALS: [u64; 10] = [1, 1, 2, 6, 24, 120, 720, 5040, 40320, 362880];
pub const BINOMIALS: [[u64; 10]; 10] = binomials();

const fn binomials() -> [[u64; 10]; 10] {
    let mut table = [[0; 10]; 10];
    let mut n = 0;
    while n < 10 {
        table[n][0] = 1;
        let mut k = 1;
        while k <= n {
            table[n][k] = table[n - 1][k - 1] + table[n - 1][k];
            k += 1;
        }
        n += 1;
    }
    table
}

/// Sums over a window at one local place.
#[derive(Clone, Copy, Default)]
pub struct Blended {
    pub shares: u64,
    pub correction: i64,
    pub uncertainty: u64,
}

impl Blended {
    pub fn add(&mut self, share: u32, correction: i16, uncertainty: u16) {
        self.shares += u64::from(share);
        self.correction += i64::from(share) * i64::from(correction);
        self.uncertainty += u64::from(share) * u64::from(uncertainty);
    }
}

/// A number that weights are made of.
pub trait Weight: Copy + Mul<Output = Self> {
    fn of(number: u64) -> Self;
}

impl Weight for u64 {
    fn of(number: u64) -> u64 {
        number
    }
}

impl Weight for f64 {
    fn of(number: u64) -> f64 {
        number as f64
    }
}

/// Hands on the blended numbers and the weight of each local place, or refuses by 23; `blend` gives the sums at
/// a local place by its index in the net.
pub fn each_term<T: Weight>(
    shape: &Shape,
    placing: &Placing,
    mut blend: impl FnMut(usize) -> Blended,
    mut add: impl FnMut(Blended, T),
) -> Result<(), Refusal> {
    let m = shape.degree;
    let [p, r, s] = placing.strides(shape);
    let [x0, x1, x2, x3] = placing.weights.map(|weight| powers(T::of(weight), m));
    let binomial = |n: usize, k: usize| T::of(BINOMIALS[n][k]);
    for a1 in 0..=m {
        let weight1 = binomial(m, a1) * x0[m - a1];
        for a2 in 0..=a1 {
            let weight2 = weight1 * binomial(a1, a2) * x1[a1 - a2];
            for a3 in 0..=a2 {
                let blended = blend(p * a1 + r * a2 + s * a3);
                if blended.shares != FACTORIALS[m] {
                    return refuse(23);
                }
                add(blended, weight2 * binomial(a2, a3) * x2[a2 - a3] * x3[a3]);
            }
        }
    }
    Ok(())
}

/// The powers 0 to m of a weight.
pub fn powers<T: Weight>(weight: T, degree: usize) -> [T; 10] {
    let mut powers = [T::of(1); 10];
    for i in 1..=degree {
        powers[i] = powers[i - 1] * weight;
    }
    powers
}

/// The exact answer.
pub struct Exact;

impl Sums for Exact {
    type Answer = Fraction;

    fn value(
        &self,
        shape: &Shape,
        placing: &Placing,
        blend: impl FnMut(usize) -> Blended,
    ) -> Result<Fraction, Refusal> {
        let (mut numerator, mut uncertainty) = (0, 0);
        each_term(shape, placing, blend, |blended, weight: u64| {
            numerator += blended.correction * weight as i64;
            uncertainty += blended.uncertainty * weight;
        })?;
        Ok(Fraction { numerator, uncertainty, denominator: placing.denominator })
    }
}
