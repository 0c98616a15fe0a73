//! Points of blocks that begin anywhere, held to what the evaluator has for the same block at the origin 0 and the
//! point that is there where the asked one is here.

use super::super::each_plan;
use super::{Asked, planned};
use crate::Outcome;
use crate::answers::{Answered, number};
use crate::placings::Place;
use crate::report::Tally;
use crate::shelf::Shelf;
use evaluator::point::Call;
use evaluator::unit::Unit;
use evaluator::{lent, placing};

/// A coordinate less what the origin has over the divisor. What has more than 32 bits is outside, and so is the nearest
/// that has not: nothing inside a block at the origin 0 is so far away.
fn read_from_origin(coordinate: i32, origin: i16, divisor: u32) -> i32 {
    let exact = i64::from(coordinate) - i64::from(origin) * i64::from(divisor);
    exact.clamp(i32::MIN.into(), i32::MAX.into()) as i32
}

/// The same at the origin 0.
fn at_zero(unit: &Unit, coordinates: [i32; 3], divisor: u32) -> (Unit, [i32; 3]) {
    let coordinates = [0, 1, 2].map(|b| read_from_origin(coordinates[b], unit.o[b], divisor));
    (Unit { o: [0; 3], ..*unit }, coordinates)
}

fn answer_at_zero(call: &Call, net: &[u32]) -> Answered {
    let (unit, coordinates) = at_zero(&call.unit, call.coordinates, call.divisor);
    lent::answer(&Call { unit, coordinates, ..*call }, net)
}

/// Calls of all plans.
pub fn moved(asked: Asked, seed: u64, count: usize, shelf: &Shelf, tally: &mut Tally) -> Outcome {
    each_plan(seed, count, asked.checks(), |plan, random| {
        let case = planned(plan, asked, shelf, random);
        plan.made(case.check(shelf, tally, answer_at_zero)?)
    })
}

/// Placing calls of all plans; what a point call finds in the window is not looked at.
pub fn placed_moved(seed: u64, count: usize, shelf: &Shelf, tally: &mut Tally) -> Outcome {
    each_plan(seed, count, &[21, 22, 10, 11, 12], |plan, random| {
        let case = planned(plan, Asked::Exact, shelf, random);
        let (unit, coordinates) = at_zero(&case.handed.unit, case.coordinates, case.divisor);
        let expected = placing::place(&unit, coordinates, case.divisor);
        plan.made(number(&expected))?;
        Place { unit: case.handed, coordinates: case.coordinates, divisor: case.divisor }.check(&expected)?;
        tally.count(number(&expected));
        Ok(())
    })
}
