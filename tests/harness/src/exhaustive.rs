//! Small units: every point is placed, and every placing with small numbers, some past each limit, is valued. What
//! the points give is answered, and all else is refused by 17.

use crate::Outcome;
use crate::answers::{Answered, Handed, LiveBits, number, placing_record, point_answer};
use crate::calls::{expect, run};
use crate::placings::Place;
use crate::report::Tally;
use crate::shelf::Shelf;
use crate::torskavel;
use evaluator::field::Block;
use evaluator::net::{Multiplicities, Net};
use evaluator::placing::Placing;
use evaluator::point::Call;
use evaluator::random::Random;
use evaluator::unit::{Origin, Refusal, Sizes, Unit};
use evaluator::{lent, live};
use std::collections::HashMap;
use std::fmt;

/// Multiplicities, sizes, origin, and the greatest weight. Of degree 9 the largest divisors are 9, and 4 in a live
/// call.
const CASES: [([usize; 4], [usize; 3], Origin, u32); 4] = [
    ([1, 1, 1, 1], [3, 2, 3], [0, 0, 0], 4),
    ([2, 1, 1, 1], [3, 3, 2], [-1, -2, 32767], 3),
    ([1, 2, 1, 1], [2, 3, 3], [-32768, 1, 0], 2),
    ([9, 1, 1, 1], [10, 2, 2], [-5, -1, 7], 3),
];

/// The greatest number for an axis; there are three.
const AXIS: u32 = 4;

type Expected<T> = Result<T, Refusal>;

struct Small<'a> {
    unit: Unit,
    net: &'a Net,
    block: Block,
    /// The greatest weight; no divisor is above the sum of four.
    weight: u32,
}

impl fmt::Display for Small<'_> {
    fn fmt(&self, f: &mut fmt::Formatter) -> fmt::Result {
        write!(f, "unit {} with weights up to {}", self.unit, self.weight)
    }
}

/// All lists of numbers up to the greatest ones.
fn lists<const N: usize>(greatest: [u32; N]) -> impl Iterator<Item = [u32; N]> {
    let count = greatest.iter().map(|&number| u64::from(number) + 1).product::<u64>();
    (0..count).map(move |mut index| {
        greatest.map(|number| {
            let digit = index % (u64::from(number) + 1);
            index /= u64::from(number) + 1;
            digit as u32
        })
    })
}

impl<'a> Small<'a> {
    fn all(shelf: &'a Shelf) -> Vec<Small<'a>> {
        let small = |(v, n, origin, weight)| {
            let (v, sizes) = (Multiplicities::new(v).expect("a net"), Sizes::new(n).expect("sizes"));
            let block = Block::random(sizes, &mut Random::new(17));
            Small { unit: Unit::EMPTY.with_net(v).with_block(sizes, origin), net: shelf.net(v), block, weight }
        };
        CASES.into_iter().map(small).collect()
    }

    /// Each point from two before the origin to two past the far faces, over each divisor.
    fn points(&self) -> impl Iterator<Item = Place> {
        let (unit, n, o) = (Handed::from(self.unit), self.unit.n.map(u32::from), self.unit.o.map(i32::from));
        (0..=4 * self.weight).flat_map(move |divisor| {
            let first = o.map(|o| o * divisor as i32 - 2);
            let all = lists(n.map(|n| n * divisor + 4));
            let coordinates = move |steps: [u32; 3]| [0, 1, 2].map(|b| first[b] + steps[b] as i32);
            all.map(move |steps| Place { unit, coordinates: coordinates(steps), divisor })
        })
    }

    fn call(&self, place: &Place) -> Call<'_> {
        let Block { corrections, uncertainties, .. } = &self.block;
        let &Place { coordinates, divisor, .. } = place;
        Call { unit: self.unit, net_length: self.net.numbers.len(), corrections, uncertainties, coordinates, divisor }
    }

    /// The placings that points have, with what the evaluator makes of the point.
    fn possible<T>(&self, make: impl Fn(&Call, Answered) -> T) -> HashMap<Placing, T> {
        let placed = self.points().filter_map(|place| Some((place.evaluated().ok()?, self.call(&place))));
        let few = placed.filter(|(placing, _)| placing.weights.iter().all(|&weight| weight <= self.weight));
        few.map(|(placing, call)| (placing, make(&call, lent::answer(&call, &self.net.numbers)))).collect()
    }

    /// Hands on each placing with small numbers, and what is expected there. The unit is told, and the placing where it
    /// fails. All that are possible must have come.
    fn each_placing<T, F>(&self, possible: HashMap<Placing, Expected<T>>, tally: &mut Tally, check: F) -> Outcome
    where
        T: Copy,
        F: Fn(torskavel::Placing, &Expected<T>) -> Outcome,
    {
        let mut left = possible.len();
        run(self, || {
            for placing in self.placings() {
                let expected = possible.get(&placing);
                left -= usize::from(expected.is_some());
                let expected = expected.copied().unwrap_or(Err(Refusal::from(17)));
                let checked = check(placing_record(&placing), &expected);
                checked.map_err(|failure| format!("placing {placing}: {failure}"))?;
                tally.count(number(&expected));
            }
            if left == 0 && !possible.is_empty() { Ok(()) } else { Err(format!("{left} placings never came")) }
        })
    }

    fn placings(&self) -> impl Iterator<Item = Placing> {
        let (n, weight) = (self.unit.n.map(u32::from), self.weight);
        let orders = || lists([AXIS; 3]).map(|order| order.map(|axis| axis as u8));
        lists(n.map(|n| n + 1)).flat_map(move |cell| {
            orders().flat_map(move |order| lists([weight; 4]).map(move |weights| Placing { cell, order, weights }))
        })
    }
}

/// Every point, held to the evaluator.
pub fn place(shelf: &Shelf, tally: &mut Tally) -> Outcome {
    for small in Small::all(shelf) {
        for place in small.points() {
            let expected = place.evaluated();
            place.check(&expected)?;
            tally.count(number(&expected));
        }
    }
    Ok(())
}

pub fn value(shelf: &Shelf, tally: &mut Tally) -> Outcome {
    for small in Small::all(shelf) {
        let (record, net) = (Handed::from(small.unit).record(), &small.net.numbers);
        let Block { corrections, uncertainties, .. } = &small.block;
        small.each_placing(small.possible(|_, exact| exact), tally, |placing, expected| {
            let answer = torskavel::value(record, net, corrections, uncertainties, placing);
            expect(point_answer(expected), answer)
        })?;
    }
    Ok(())
}

/// With the uncertainty.
pub fn live_value(shelf: &Shelf, tally: &mut Tally) -> Outcome {
    for small in Small::all(shelf) {
        let (record, net) = (Handed::from(small.unit).record(), &small.net.numbers);
        let Block { corrections, uncertainties, .. } = &small.block;
        let possible = small.possible(|call, exact| live::answer(call, exact, true));
        small.each_placing(possible, tally, |placing, expected| {
            let answer = torskavel::live_value(record, net, corrections, uncertainties, placing, true);
            expect(LiveBits::from(expected), answer.into())
        })?;
    }
    Ok(())
}
