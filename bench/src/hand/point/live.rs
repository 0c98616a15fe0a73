//! The live answer: N and U as floats, or N alone.

use super::Sums;
use super::bernstein::{BINOMIALS, Blended, FACTORIALS, each_term, powers};
use super::place::Placing;
use crate::hand::shape::Shape;
use crate::hand::{Refusal, refuse};

const LARGEST_DENOMINATOR: u64 = 1 << 37;

/// N and U, which is 0 where it is switched off.
#[derive(Clone, Copy, Debug)]
pub struct Floats {
    pub numerator: f64,
    pub uncertainty: f64,
}

impl Floats {
    /// For comparisons: -0.0 is not +0.0.
    pub fn bits(self) -> [u64; 2] {
        [self.numerator.to_bits(), self.uncertainty.to_bits()]
    }
}

/// Term by term.
pub struct Straight {
    pub with_uncertainty: bool,
}

impl Sums for Straight {
    type Answer = Floats;
    const LARGEST_DENOMINATOR: u64 = LARGEST_DENOMINATOR;

    fn value(
        &self,
        shape: &Shape,
        placing: &Placing,
        blend: impl FnMut(usize) -> Blended,
    ) -> Result<Floats, Refusal> {
        let (mut numerator, mut uncertainty) = (0.0, 0.0);
        each_term(shape, placing, blend, |blended, weight: f64| {
            numerator += blended.correction as f64 * weight;
            if self.with_uncertainty {
                uncertainty += blended.uncertainty as f64 * weight;
            }
        })?;
        Ok(Floats { numerator, uncertainty })
    }
}

/// In three nested sums, each with its part of the weight, so that no term waits for all before it.
pub struct Nested {
    pub with_uncertainty: bool,
}

impl Sums for Nested {
    type Answer = Floats;
    const LARGEST_DENOMINATOR: u64 = LARGEST_DENOMINATOR;

    fn value(
        &self,
        shape: &Shape,
        placing: &Placing,
        blend: impl FnMut(usize) -> Blended,
    ) -> Result<Floats, Refusal> {
        if self.with_uncertainty {
            // A signed number becomes a float in one instruction.
            let both = |blended: &Blended| [blended.correction as f64, blended.uncertainty as i64 as f64];
            let [numerator, uncertainty] = nested(shape, placing, blend, both)?;
            return Ok(Floats { numerator, uncertainty });
        }
        let [numerator] = nested(shape, placing, blend, |blended| [blended.correction as f64])?;
        Ok(Floats { numerator, uncertainty: 0.0 })
    }
}

/// The sums of each of the blended numbers that `numbers` gives.
fn nested<const K: usize>(
    shape: &Shape,
    placing: &Placing,
    mut blend: impl FnMut(usize) -> Blended,
    numbers: impl Fn(&Blended) -> [f64; K],
) -> Result<[f64; K], Refusal> {
    let m = shape.degree;
    let [p, r, s] = placing.strides(shape);
    let [x0, x1, x2, x3] = placing.weights.map(|weight| powers(weight as f64, m));
    let weight = |n: usize, k: usize, x: &[f64; 10]| BINOMIALS[n][k] as f64 * x[n - k];
    let mut innermost = [[0.0; 10]; 10];
    for (a2, row) in innermost.iter_mut().enumerate().take(m + 1) {
        for a3 in 0..=a2 {
            row[a3] = weight(a2, a3, &x2) * x3[a3];
        }
    }
    let mut sums = [0.0; K];
    for a1 in 0..=m {
        let mut sums1 = [0.0; K];
        for a2 in 0..=a1 {
            let mut sums2 = [0.0; K];
            for a3 in 0..=a2 {
                let blended = blend(p * a1 + r * a2 + s * a3);
                if blended.shares != FACTORIALS[m] {
                    return refuse(23);
                }
                add(&mut sums2, numbers(&blended), innermost[a2][a3]);
            }
            add(&mut sums1, sums2, weight(a1, a2, &x1));
        }
        add(&mut sums, sums1, weight(m, a1, &x0));
    }
    Ok(sums)
}

fn add<const K: usize>(sums: &mut [f64; K], numbers: [f64; K], weight: f64) {
    for (sum, number) in sums.iter_mut().zip(numbers) {
        *sum += number * weight;
    }
}
