//! From the values of a polynomial inside a tetrahedron to its Bézier coefficients, exactly.
//!
//! The samples of degree m lie at the barycentric points (a+1)/(m+4) for all a = (a0..a3) with sum m: a smaller
//! tetrahedron's regular lattice, off every face. In the coordinates y_i = (m+4) L_i - 1 the lattice is the a
//! themselves, and the polynomial that is 1 at a and 0 at every other one is the product over i of "y_i choose a_i".
//! Written as a product of m forms, linear in the barycentric coordinates L (whose sum is 1), it expands to a
//! homogeneous polynomial, from which the Bernstein coefficients of (8) and (9) of the article are read off.

use crate::ratio::{Ratio, factorial, lcm};
use std::collections::BTreeMap;

pub type Quadruple = [usize; 4];

/// All (b0..b3) with the given sum.
pub fn quadruples(sum: usize) -> Vec<Quadruple> {
    let mut all = Vec::new();
    for b3 in 0..=sum {
        for b2 in 0..=sum - b3 {
            for b1 in 0..=sum - b3 - b2 {
                all.push([sum - b1 - b2 - b3, b1, b2, b3]);
            }
        }
    }
    all
}

pub fn factorials(b: &Quadruple) -> i128 {
    b.iter().map(|&e| factorial(e)).product()
}

/// A whole-number combination of the samples over a denominator.
struct Row {
    weights: Vec<i64>,
    denominator: i128,
}

impl Row {
    fn new(fractions: &[Ratio], scale: i128) -> Row {
        let common = fractions.iter().fold(1, |common, f| lcm(common, f.denominator));
        let weight = |f: &Ratio| i64::try_from(f.numerator * (common / f.denominator)).expect("a weight fits 64 bits");
        Row { weights: fractions.iter().map(weight).collect(), denominator: common * scale }
    }

    fn apply(&self, samples: &[i64]) -> i128 {
        let products = self.weights.iter().zip(samples).map(|(&w, &s)| w as i128 * s as i128);
        let sum: i128 = products.sum();
        assert!(sum % self.denominator == 0, "a Bézier coefficient times m! is a whole number");
        sum / self.denominator
    }
}

pub struct Interpolation {
    pub degree: usize,
    /// The a of the samples and also the (b0..b3) of the coefficients, in the order of both.
    pub indices: Vec<Quadruple>,
    rows: Vec<Row>,
}

impl Interpolation {
    pub fn new(degree: usize) -> Interpolation {
        let indices = quadruples(degree);
        let expansions: Vec<_> = indices.iter().map(|a| expansion(a, degree)).collect();
        let scale = (Self::divisor_of(degree) as i128).pow(degree as u32);
        let row = |b: &Quadruple| {
            let fraction = |(a, e): (&Quadruple, &Polynomial)| {
                let coefficient = e.get(b).copied().unwrap_or(0);
                Ratio::new(coefficient * factorials(b), factorials(a) * factorial(degree))
            };
            let fractions: Vec<Ratio> = indices.iter().zip(&expansions).map(fraction).collect();
            Row::new(&fractions, scale)
        };
        let rows = indices.iter().map(row).collect();
        Interpolation { degree, indices, rows }
    }

    fn divisor_of(degree: usize) -> i64 {
        degree as i64 + 4
    }

    /// What the barycentric coordinates of the samples are over.
    pub fn divisor(&self) -> i64 {
        Self::divisor_of(self.degree)
    }

    /// The barycentric coordinates of sample `a`, times the divisor.
    pub fn barycentric(a: &Quadruple) -> [i64; 4] {
        a.map(|c| c as i64 + 1)
    }

    /// The Bézier coefficients times m!, from the samples' values times m! and the divisor's m-th power.
    pub fn coefficients(&self, samples: &[i64]) -> Vec<i128> {
        assert_eq!(samples.len(), self.indices.len());
        if samples.iter().all(|&s| s == 0) {
            return vec![0; samples.len()];
        }
        self.rows.iter().map(|row| row.apply(samples)).collect()
    }
}

/// A homogeneous polynomial in L0..L3 by its exponents.
type Polynomial = BTreeMap<Quadruple, i128>;

/// The product over i and c < a_i of y_i - c: a0! a1! a2! a3! times the polynomial that picks sample a.
fn expansion(a: &Quadruple, degree: usize) -> Polynomial {
    let mut product = Polynomial::from([([0; 4], 1)]);
    for i in 0..4 {
        for c in 0..a[i] {
            // y_i - c = (m+4) L_i - (c+1) (L0+L1+L2+L3)
            let mut form = [-(c as i128 + 1); 4];
            form[i] += degree as i128 + 4;
            product = times_form(&product, &form);
        }
    }
    product
}

fn times_form(polynomial: &Polynomial, form: &[i128; 4]) -> Polynomial {
    let mut product = Polynomial::new();
    for (exponents, coefficient) in polynomial {
        for i in 0..4 {
            let mut raised = *exponents;
            raised[i] += 1;
            *product.entry(raised).or_insert(0) += coefficient * form[i];
        }
    }
    product
}

#[cfg(test)]
mod tests {
    use super::*;

    /// m!/(b0!..b3!) L^b at the barycentric coordinates L, which are scaled by the divisor.
    fn bernstein(b: &Quadruple, l: [i64; 4], degree: usize) -> i64 {
        let powers: i64 = (0..4).map(|i| l[i].pow(b[i] as u32)).product();
        (factorial(degree) / factorials(b)) as i64 * powers
    }

    #[test]
    fn a_bernstein_polynomial_has_one_coefficient() {
        for degree in 1..=9 {
            let interpolation = Interpolation::new(degree);
            let count = interpolation.indices.len();
            for which in [0, 1, count / 2, count - 1] {
                let b = interpolation.indices[which];
                let sample = |a| bernstein(&b, Interpolation::barycentric(a), degree);
                let samples: Vec<i64> = interpolation.indices.iter().map(sample).collect();
                let mut expected = vec![0; count];
                expected[which] = 1;
                assert_eq!(interpolation.coefficients(&samples), expected, "degree {degree}, {b:?}");
            }
        }
    }

    #[test]
    fn there_are_m_plus_3_choose_3_quadruples() {
        assert_eq!(quadruples(1).len(), 4);
        assert_eq!(quadruples(9).len(), 220);
    }
}
