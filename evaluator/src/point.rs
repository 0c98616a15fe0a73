//! Points answered by the recurrence: N is the sum over the block of correction times m! D^m M(x - o - j).
//!
//! No net and no Bernstein sum takes part. Checks 21 to 13 are those of a point call; 23 cannot apply to a defined net.
//! A far face needs no rule in the sum: the splines are continuous, so that any entry past the block would have the
//! value 0 there. Only 12 and 13 know of it. Nor does the sum know of cells that are counted from the block's origin:
//! a coordinate over D is a position, which has as its whole part the quotient rounded down, and entry j is at o + j.

use crate::field::NEVER_MEASURED;
use crate::net::Multiplicities;
use crate::ratio::factorial;
use crate::recurrence::{AXIS_ORDERS, Translates};
use crate::unit::{Refusal, Sizes, Unit, refuse_if};
use std::fmt;

pub const LARGEST_DIVISOR: u32 = 4096;
const LARGEST_DENOMINATOR: i128 = 1 << 48;

/// What a point call is handed, the net's numbers left out.
#[derive(Clone, Copy)]
pub struct Call<'a> {
    pub unit: Unit,
    pub net_length: usize,
    pub corrections: &'a [i16],
    pub uncertainties: &'a [u16],
    pub coordinates: [i32; 3],
    pub divisor: u32,
}

#[derive(Clone, Copy, PartialEq, Eq, Debug)]
pub struct Fraction {
    pub numerator: i64,
    pub uncertainty: u64,
    pub denominator: u64,
}

impl Fraction {
    pub fn new(numerator: i128, uncertainty: i128, denominator: i128) -> Fraction {
        Fraction {
            numerator: i64::try_from(numerator).expect("N is a signed 64-bit number"),
            uncertainty: u64::try_from(uncertainty).expect("U is an unsigned 64-bit number"),
            denominator: u64::try_from(denominator).expect("at most 2^48"),
        }
    }
}

impl fmt::Display for Fraction {
    fn fmt(&self, f: &mut fmt::Formatter) -> fmt::Result {
        write!(f, "answer {} {} {}", self.numerator, self.uncertainty, self.denominator)
    }
}

/// The answer of an exact call.
pub type Exact = Result<Fraction, Refusal>;

/// A point that 21, 22, 10, 11 and 12 let pass.
pub struct Placed {
    pub multiplicities: Multiplicities,
    pub sizes: Sizes,
    /// The position of the block's first entry.
    pub origin: [i64; 3],
    /// The whole part of each coordinate over the divisor, rounded down: o + n on a far face.
    pub quotient: [i64; 3],
    /// 0 on a far face.
    pub remainder: [u32; 3],
    pub divisor: u32,
    /// m! D^m.
    pub denominator: i128,
}

impl Placed {
    /// Whether the point is on the far face of an axis.
    pub fn is_far(&self, axis: usize) -> bool {
        self.quotient[axis] == self.origin[axis] + self.sizes.axes()[axis] as i64
    }

    /// k on each axis, counted from the block's first entry: a far face belongs to the last cell.
    pub fn cell(&self) -> [usize; 3] {
        let entry = |b: usize| self.quotient[b] - i64::from(self.is_far(b));
        [0, 1, 2].map(|b| usize::try_from(entry(b) - self.origin[b]).expect("no point inside is before the origin"))
    }

    /// The entries j of the window with their indices, which ascend.
    pub fn window(&self) -> impl Iterator<Item = (usize, [usize; 3])> {
        let (extents, cell) = (self.multiplicities.extents(), self.cell());
        let within = move |j: &[usize; 3]| (0..3).all(|b| j[b] <= cell[b] && cell[b] < j[b] + extents[b]);
        (0..self.sizes.entries()).map(|index| (index, self.sizes.entry(index))).filter(move |(_, j)| within(j))
    }
}

/// The coordinate that is so many entries, and so much over the divisor, past the origin of an axis; where it has more
/// than 32 bits, the nearest that has not.
pub fn coordinate(origin: i16, entries: usize, more: i64, divisor: u32) -> i32 {
    let exact = (i64::from(origin) + entries as i64) * i64::from(divisor) + more;
    exact.clamp(i32::MIN.into(), i32::MAX.into()) as i32
}

/// m! D^m for an allowed divisor.
fn denominator(degree: usize, divisor: u32) -> i128 {
    factorial(degree) * i128::from(divisor).pow(degree as u32)
}

/// The greatest divisor that neither 10 nor 11 refuses.
pub fn largest_divisor(degree: usize) -> u32 {
    largest_divisor_within(degree, LARGEST_DENOMINATOR)
}

/// The greatest divisor that 10 does not refuse and whose denominator is within a limit.
pub fn largest_divisor_within(degree: usize, limit: i128) -> u32 {
    let passes = |&d: &u32| denominator(degree, d) <= limit;
    (1..=LARGEST_DIVISOR).rev().find(passes).expect("9! is within the limit")
}

/// Whether a coordinate is inside on an axis: at one of the two ends that origin, size and extent give it, or between
/// them.
fn inside(extent: usize, size: usize, origin: i64, coordinate: i64, divisor: i64) -> bool {
    let [first, last] = [extent - 1, size].map(|entries| (origin + entries as i64) * divisor);
    extent <= size && (first..=last).contains(&coordinate)
}

/// Checks 21 and 22: what the unit has.
pub fn held(unit: &Unit) -> Result<(Multiplicities, Sizes), Refusal> {
    let multiplicities = unit.net().ok_or(Refusal::from(21))?;
    Ok((multiplicities, unit.block().ok_or(Refusal::from(22))?))
}

/// Those and then 4, 9: the multiplicities.
fn lent(call: &Call) -> Result<Multiplicities, Refusal> {
    let (multiplicities, sizes) = held(&call.unit)?;
    refuse_if(call.net_length < multiplicities.places(), 4)?;
    refuse_if(call.corrections.len().min(call.uncertainties.len()) < sizes.entries(), 9)?;
    Ok(multiplicities)
}

/// Checks 10 and 11: m! D^m.
fn allowed(degree: usize, divisor: u32) -> Result<i128, Refusal> {
    refuse_if(divisor == 0 || divisor > LARGEST_DIVISOR, 10)?;
    let denominator = denominator(degree, divisor);
    refuse_if(denominator > LARGEST_DENOMINATOR, 11)?;
    Ok(denominator)
}

/// m! D^m of a call that passes 21, 22, 4, 9, 10, 11, which are checked in this order.
pub fn denominator_of(call: &Call) -> Result<i128, Refusal> {
    allowed(lent(call)?.degree(), call.divisor)
}

/// The checks of a placing call: 21, 22, 10, 11, 12.
pub fn place(unit: &Unit, coordinates: [i32; 3], divisor: u32) -> Result<Placed, Refusal> {
    let (multiplicities, sizes) = held(unit)?;
    let denominator = allowed(multiplicities.degree(), divisor)?;
    let (extents, axes, origin) = (multiplicities.extents(), sizes.axes(), unit.o.map(i64::from));
    let (coordinates, by) = (coordinates.map(i64::from), i64::from(divisor));
    let inside = (0..3).all(|b| inside(extents[b], axes[b], origin[b], coordinates[b], by));
    refuse_if(!inside, 12)?;
    let quotient = coordinates.map(|c| c.div_euclid(by));
    let remainder = coordinates.map(|c| c.rem_euclid(by) as u32);
    Ok(Placed { multiplicities, sizes, origin, quotient, remainder, divisor, denominator })
}

/// The checks of a point call but 23: 21, 22, 4, 9, then those of its placing that are left, then 13.
pub fn checked(call: &Call) -> Result<Placed, Refusal> {
    lent(call)?;
    let placed = place(&call.unit, call.coordinates, call.divisor)?;
    let gap = placed.window().find(|&(index, _)| call.corrections[index] == NEVER_MEASURED);
    match gap {
        Some((index, _)) => Err(Refusal::at(13, index)),
        None => Ok(placed),
    }
}

/// The translates of the point, in a tetrahedron that has it.
fn translates(placed: &Placed) -> Translates {
    let remainder = placed.remainder.map(i64::from);
    let allowed = |order: &&[usize; 3]| order.windows(2).all(|o| remainder[o[0]] >= remainder[o[1]]);
    let order = AXIS_ORDERS.iter().find(allowed).expect("the remainders have an order");
    Translates::new(remainder, i64::from(placed.divisor), *order)
}

/// The sums over the block, where `value` is m! D^m M at a whole-number translate of the point.
fn sum_over_block(call: &Call, placed: &Placed, value: impl Fn([i64; 3]) -> i64) -> Fraction {
    let (mut numerator, mut uncertainty) = (0, 0);
    for index in 0..placed.sizes.entries() {
        let j = placed.sizes.entry(index);
        let value = i128::from(value([0, 1, 2].map(|b| placed.quotient[b] - (placed.origin[b] + j[b] as i64))));
        numerator += value * i128::from(call.corrections[index]);
        uncertainty += value * i128::from(call.uncertainties[index]);
    }
    Fraction::new(numerator, uncertainty, placed.denominator)
}

pub fn answer(call: &Call) -> Exact {
    let placed = checked(call)?;
    let mut translates = translates(&placed);
    let table = translates.table(&placed.multiplicities.counts());
    Ok(sum_over_block(call, &placed, |l| table.at(l)))
}

/// As `answer`, each M(x - o - j) by itself and without tables.
pub fn answer_without_tables(call: &Call) -> Exact {
    let placed = checked(call)?;
    let translates = translates(&placed);
    let counts = placed.multiplicities.counts();
    Ok(sum_over_block(call, &placed, |l| translates.alone(&counts, l)))
}

#[cfg(test)]
mod tests;
