//! Live answers: N and U of a point as the bits of floats, or N alone where the uncertainty is switched off.
//!
//! The numbers are those of the exact call. Check 15, which live calls alone have, stands between 11 and 12, and at a
//! placing just after 17. The floats are put together bit by bit: no arithmetic of floats takes part.

use crate::point::{Call, Exact, denominator_of, largest_divisor_within};
use crate::unit::{Refusal, refuse_if};
use crate::value;
use std::fmt;

const LARGEST_DENOMINATOR: i128 = 1 << 37;

/// The bits of a float's fraction; below 2 to one more than these every whole number is a float.
const FRACTION_BITS: u32 = 52;
/// What is added to an exponent before it is stored.
const BIAS: u64 = 1023;

/// The floats of a live answer, each as its 64 bits.
#[derive(Clone, Copy, PartialEq, Eq, Debug)]
pub enum Floats {
    Both { numerator: u64, uncertainty: u64 },
    Shift(u64),
}

impl fmt::Display for Floats {
    fn fmt(&self, f: &mut fmt::Formatter) -> fmt::Result {
        match self {
            Floats::Both { numerator, uncertainty } => write!(f, "both {numerator:016x} {uncertainty:016x}"),
            Floats::Shift(numerator) => write!(f, "shift {numerator:016x}"),
        }
    }
}

/// The answer of a live call.
pub type Live = Result<Floats, Refusal>;

/// The greatest divisor that none of 10, 11 and 15 refuses.
pub fn largest_divisor(degree: usize) -> u32 {
    largest_divisor_within(degree, LARGEST_DENOMINATOR)
}

/// The live answer of a call, from its exact one.
pub fn answer(call: &Call, exact: Exact, with_uncertainty: bool) -> Live {
    over(denominator_of(call)?, exact, with_uncertainty)
}

/// The live answer at a placing, from the exact one.
pub fn value(call: &value::Call, exact: Exact, with_uncertainty: bool) -> Live {
    over(call.denominator()?, exact, with_uncertainty)
}

/// Check 15, and the floats of an answer that is not refused.
fn over(denominator: i128, exact: Exact, with_uncertainty: bool) -> Live {
    refuse_if(denominator > LARGEST_DENOMINATOR, 15)?;
    let exact = exact?;
    let (numerator, uncertainty) = (bits(exact.numerator.into()), bits(exact.uncertainty.into()));
    Ok(if with_uncertainty { Floats::Both { numerator, uncertainty } } else { Floats::Shift(numerator) })
}

/// The bits of the float that is this whole number, of IEEE 754's binary64: the sign, the exponent of the
/// leading 1, and what stands below it. 0 has none set.
fn bits(number: i128) -> u64 {
    let magnitude = u64::try_from(number.unsigned_abs()).expect("N and U have 64 bits at most");
    let Some(exponent) = magnitude.checked_ilog2() else { return 0 };
    assert!(exponent <= FRACTION_BITS, "{number} may be no float");
    let leading = 1 << FRACTION_BITS;
    let fraction = (magnitude << (FRACTION_BITS - exponent)) - leading;
    let sign = u64::from(number < 0);
    sign << 63 | (BIAS + u64::from(exponent)) << FRACTION_BITS | fraction
}

#[cfg(test)]
mod tests {
    use super::*;
    use crate::field::Block;
    use crate::net::Multiplicities;
    use crate::point;
    use crate::random::Random;
    use crate::unit::{Sizes, Unit};

    fn ask(v: [usize; 4], block: &Block, coordinates: [i32; 3], divisor: u32, on: bool) -> Live {
        let multiplicities = Multiplicities::new(v).unwrap();
        let unit = Unit::EMPTY.with_net(multiplicities).with_block(block.sizes, block.origin);
        let (net_length, Block { corrections, uncertainties, .. }) = (multiplicities.places(), block);
        let call = Call { unit, net_length, corrections, uncertainties, coordinates, divisor };
        answer(&call, point::answer(&call), on)
    }

    #[test]
    fn bits_are_those_of_the_float() {
        let mut random = Random::new(1);
        let edges = (0..=FRACTION_BITS).flat_map(|power| [-1, 0, 1].map(|more| (1i128 << power) + more));
        let any = (0..10_000).map(|_| i128::from(random.below(1 << 53) >> random.below(53)));
        for number in edges.chain(any).chain([(1 << 53) - 1]).flat_map(|number| [number, -number]) {
            assert_eq!(bits(number), (number as f64).to_bits(), "{number}");
        }
        assert_eq!(bits(0), 0);
    }

    #[test]
    #[should_panic]
    fn a_number_that_may_be_no_float_stops_the_program() {
        bits((1 << 53) + 1);
    }

    #[test]
    fn the_largest_divisors() {
        let largest: Vec<u32> = (1..=9).map(largest_divisor).collect();
        assert_eq!(largest, [4096, 4096, 2840, 275, 64, 23, 11, 6, 4]);
    }

    #[test]
    fn check_15_stands_between_11_and_12() {
        let block = Block::constant(Sizes::new([4; 3]).unwrap(), 7, 65535);
        let ask = |point, divisor| ask([2; 4], &block, point, divisor, true);
        let number = |point, divisor| ask(point, divisor).map_or_else(|refusal| refusal.number, |_| 0);
        for (divisor, inside, outside) in [(64, 0, 12), (65, 15, 15), (297, 15, 15), (298, 11, 11)] {
            let first = [3 * divisor as i32; 3];
            assert_eq!(number(first, divisor), inside);
            assert_eq!(number(first.map(|c| c - 1), divisor), outside);
            assert_eq!(number([-1, first[1], i32::MIN], divisor), outside);
        }
        assert_eq!(number([0; 3], 0), 10);
    }

    #[test]
    fn the_figures_worked_by_hand() {
        let mut block = Block::constant(Sizes::new([2; 3]).unwrap(), 0, 5);
        (block.corrections[0], block.corrections[1]) = (100, -40);
        let both = |n: f64, u: f64| Ok(Floats::Both { numerator: n.to_bits(), uncertainty: u.to_bits() });
        assert_eq!(ask([1; 4], &block, [1, 1, 1], 1, true), both(100.0, 5.0));
        assert_eq!(ask([1; 4], &block, [3, 2, 2], 2, true), both(60.0, 10.0));
        assert_eq!(ask([1; 4], &block, [2, 1, 1], 1, true), both(-40.0, 5.0));
        assert_eq!(ask([1; 4], &block, [2, 1, 1], 1, false), Ok(Floats::Shift((-40.0f64).to_bits())));
        assert_eq!(ask([1; 4], &block, [1, 2, 1], 1, false), Ok(Floats::Shift(0)));
        assert_eq!(ask([1; 4], &block, [0, 1, 1], 1, false), Err(Refusal::from(12)));
    }
}
