//! One point call, exact or live, and how a sound one is made.

use super::super::{absent, long_enough, origin, pick, sizes};
use super::Asked;
use crate::Outcome;
use crate::answers::{Answered, Handed, number};
use crate::calls::Point;
use crate::live::Live;
use crate::loan::Loan;
use crate::report::Tally;
use crate::shelf::{LentNet, Shelf};
use evaluator::field::{Block, NEVER_MEASURED};
use evaluator::net::Multiplicities;
use evaluator::placing::Placing;
use evaluator::point::{Call, coordinate};
use evaluator::random::Random;
use evaluator::unit::{Sizes, Unit};

pub struct Case {
    pub handed: Handed,
    pub net: LentNet,
    pub net_length: usize,
    pub corrections: Vec<i16>,
    pub uncertainties: Vec<u16>,
    /// k on each axis, counted from the block's first entry: on a far face the last one.
    pub cube: [usize; 3],
    /// u on each axis: on a far face the divisor.
    pub remainder: [u32; 3],
    pub coordinates: [i32; 3],
    pub divisor: u32,
    /// Of a live call, for the uncertainty.
    pub flag: Option<u8>,
}

impl Case {
    /// Makes the call; `exact` gives the exact answer over a net slice. The expected number is handed on.
    pub fn check<F>(&self, shelf: &Shelf, tally: &mut Tally, exact: F) -> Outcome<u8>
    where
        F: Fn(&Call, &[u32]) -> Answered,
    {
        self.check_over(&self.net.slice(shelf, self.net_length), &self.net.to_string(), tally, exact)
    }

    /// What the call is lent, over a net slice, which is this for a reader.
    pub fn loan<'a>(&'a self, net: &'a [u32], told: &'a str) -> Loan<'a> {
        Loan { unit: self.handed, net, told, corrections: &self.corrections, uncertainties: &self.uncertainties }
    }

    pub fn point<'a>(&self, loan: Loan<'a>) -> Point<'a> {
        Point { loan, coordinates: self.coordinates, divisor: self.divisor }
    }

    /// The axes in the order of their remainders.
    pub fn axes(&self) -> [usize; 3] {
        let mut axes = [0, 1, 2];
        axes.sort_by_key(|&b| (std::cmp::Reverse(self.remainder[b]), b));
        axes
    }

    /// That of the point, as it was before any fault of the unit.
    pub fn placing(&self) -> Placing {
        let axes = self.axes();
        let [p, r, s] = axes.map(|b| self.remainder[b]);
        let (cell, order) = (self.cube.map(|k| k as u32), axes.map(|b| b as u8 + 1));
        Placing { cell, order, weights: [self.divisor - p, p - r, r - s, s] }
    }

    /// Makes the call over a net slice, which is this for a reader.
    pub fn check_over<F>(&self, net: &[u32], told: &str, tally: &mut Tally, exact: F) -> Outcome<u8>
    where
        F: Fn(&Call, &[u32]) -> Answered,
    {
        let point = &self.point(self.loan(net, told));
        let exact = exact(&point.evaluated(), net);
        let number = match self.flag {
            None => point.check(&exact).map(|()| number(&exact))?,
            Some(flag) => {
                let expected = evaluator::live::answer(&point.evaluated(), exact, flag != 0);
                Live { point, flag }.check(&expected).map(|()| number(&expected))?
            }
        };
        tally.count(number);
        Ok(number)
    }

    /// A point inside, at a divisor that is allowed, over a defined net.
    pub fn sound(asked: Asked, v: Multiplicities, random: &mut Random) -> Case {
        let largest = asked.largest_divisor(v.degree());
        let any = random.between(1, largest as usize) as u32;
        let divisor = pick(random, &[1, 2, largest.min(7), largest, largest, any, any, any]);
        Case::over(divisor, asked, v, random)
    }

    /// The point inside that is sound but for its divisor.
    pub fn over(divisor: u32, asked: Asked, v: Multiplicities, random: &mut Random) -> Case {
        let sizes = sizes(v.extents(), random);
        let (extents, axes) = (v.extents(), sizes.axes());
        let mut cube = [0, 1, 2].map(|b| random.between(extents[b] - 1, axes[b] - 1));
        let mut remainder = remainder(divisor, random);
        for b in far_axes(random) {
            (cube[b], remainder[b]) = (axes[b] - 1, divisor);
        }
        let Block { mut corrections, mut uncertainties, .. } = block(sizes, random);
        if random.below(3) == 0 {
            gaps_around(cube, extents, sizes, &mut corrections);
        }
        corrections.resize(long_enough(sizes.entries(), random), NEVER_MEASURED);
        uncertainties.resize(long_enough(sizes.entries(), random), u16::MAX);
        let unit = Unit::EMPTY.with_net(v).with_block(sizes, origin(random));
        let coordinates = [0, 1, 2].map(|b| coordinate(unit.o[b], cube[b], remainder[b].into(), divisor));
        let handed = Handed { unit, absent: absent(random) };
        let (net, net_length) = (LentNet::defined(v), long_enough(v.places(), random));
        let flag = asked.flag(random);
        Case { handed, net, net_length, corrections, uncertainties, cube, remainder, coordinates, divisor, flag }
    }
}

/// A vertex, a point with equal remainders or with some that are 0, or mostly one within a tetrahedron.
fn remainder(divisor: u32, random: &mut Random) -> [u32; 3] {
    if divisor == 0 {
        return [0; 3];
    }
    let [a, b, c] = [0; 3].map(|_: u32| random.below(divisor.into()) as u32);
    let special = [[0; 3], [a; 3], [a, a, b], [a, b, a], [b, a, a], [0, a, b], [a, 0, b], [a, b, 0]];
    if random.below(3) == 0 { pick(random, &special) } else { [a, b, c] }
}

/// Mostly none, else those of a far face, of an edge of two, or of the far corner.
fn far_axes(random: &mut Random) -> impl Iterator<Item = usize> {
    let faces = if random.below(4) == 0 { random.between(1, 7) } else { 0 };
    (0..3).filter(move |b| faces >> b & 1 == 1)
}

/// Random entries, one correction throughout, the largest numbers that the slices can hold, or mostly 0.
fn block(sizes: Sizes, random: &mut Random) -> Block {
    let any = random.between(0, 65534) as i32 - 32767;
    match random.below(5) {
        0 => Block::constant(sizes, any as i16, random.below(65536) as u16),
        1 => Block::constant(sizes, pick(random, &[32767, -32767]), u16::MAX),
        2 => sparse(sizes, random),
        _ => Block::random(sizes, random),
    }
}

/// Small numbers of either sign, so that many sums are 0.
fn sparse(sizes: Sizes, random: &mut Random) -> Block {
    let mut block = Block::constant(sizes, 0, pick(random, &[0, 1]));
    for correction in &mut block.corrections {
        *correction = pick(random, &[0, 0, 0, 0, 1, -1]);
    }
    block
}

/// Whether a point of this cube needs the entry.
pub fn is_needed(j: [usize; 3], cube: [usize; 3], extents: [usize; 3]) -> bool {
    (0..3).all(|b| j[b] <= cube[b] && cube[b] < j[b] + extents[b])
}

/// Every entry that the point does not need was never measured.
fn gaps_around(cube: [usize; 3], extents: [usize; 3], sizes: Sizes, corrections: &mut [i16]) {
    for (index, correction) in corrections.iter_mut().enumerate() {
        if !is_needed(sizes.entry(index), cube, extents) {
            *correction = NEVER_MEASURED;
        }
    }
}
