//! The stored points over the factory's net, asked over copies of it, which factory calls have put into
//! slices that held something else.

use super::live::each_live;
use super::points::each_point;
use crate::Outcome;
use crate::answers::number;
use crate::calls::Point;
use crate::live::Live;
use crate::loan::Loan;
use crate::random::factory::{any_unit, copied};
use crate::report::Tally;
use crate::shelf::{LentNet, Shelf};
use evaluator::calls::factory_shape;
use evaluator::random::Random;

/// The stored points.
pub fn points(seed: u64, shelf: &Shelf, tally: &mut Tally) -> Outcome {
    let random = &mut Random::new(seed);
    each_point(shelf, |point, expected| {
        over_copy(point, shelf, random, |point| {
            point.check(&expected)?;
            tally.count(number(&expected));
            Ok(())
        })
    })
}

/// The stored live calls.
pub fn live(seed: u64, shelf: &Shelf, tally: &mut Tally) -> Outcome {
    let random = &mut Random::new(seed);
    each_live(shelf, |&Live { point, flag }, expected| {
        over_copy(point, shelf, random, |point| {
            Live { point, flag }.check(&expected)?;
            tally.count(number(&expected));
            Ok(())
        })
    })
}

/// Asks the call over a copy, where the lent net is the factory's and no number was changed. The unit is as
/// stored.
fn over_copy<F>(point: &Point, shelf: &Shelf, random: &mut Random, ask: F) -> Outcome
where
    F: FnOnce(&Point) -> Outcome,
{
    let v = factory_shape();
    if point.loan.told != LentNet::defined(v).to_string() {
        return Ok(());
    }
    let length = point.loan.net.len();
    let copy = copied(any_unit(random), length.max(v.places()), shelf, random)?;
    let loan = Loan { net: &copy[..length], told: "a copy", ..point.loan };
    ask(&Point { loan, ..*point })
}
