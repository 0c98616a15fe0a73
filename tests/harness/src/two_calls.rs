//! A point in two calls, which is placed first and then valued, beside the one call that does both.

use crate::Outcome;
use crate::answers::{Answered, LiveBits, number};
use crate::calls::{Point, expect};
use crate::live::Live;
use crate::loan::Slices;
use crate::placings::{LiveValuing, Place, Valuing};
use crate::report::Tally;
use evaluator::live;

/// What point calls look at between 22 and 10, and a placing call does not.
const BEFORE_10: [u8; 2] = [4, 9];

/// What is asked of a point, whose exact answer by the evaluator is handed in.
pub type Asked = fn(&Point, &Answered, &mut Tally) -> Outcome;

/// The placing call. Where it is refused, the point call is by the same number, or by 4 or 9.
pub fn place(point: &Point, exact: &Answered, tally: &mut Tally) -> Outcome {
    let place = placing_call(point);
    let placed = place.evaluated();
    place.check(&placed)?;
    tally.count(number(&placed));
    if placed.is_ok() {
        return Ok(());
    }
    point.check(exact)?;
    let (here, whole) = (number(&placed), number(exact));
    let agree = here == whole || BEFORE_10.contains(&whole);
    agree.then_some(()).ok_or(format!("{place}: {here} here, and {whole} in one call"))
}

/// The exact valuing call at the placing that the placing call answers: as the point call.
pub fn value(point: &Point, exact: &Answered, tally: &mut Tally) -> Outcome {
    each_placed(point, |valuing| {
        valuing.check(exact)?;
        point.check(exact)?;
        tally.count(number(exact));
        Ok(())
    })
}

/// The live valuing call there, with the uncertainty and without it: as the live call, but that 15 comes before
/// 4 and 9.
pub fn live_value(point: &Point, exact: &Answered, tally: &mut Tally) -> Outcome {
    each_placed(point, |valuing| {
        for flag in [1, 0] {
            let expected = live::value(&valuing.evaluated(), *exact, flag != 0);
            LiveValuing { valuing, flag }.check(&expected)?;
            tally.count(number(&expected));
            let in_one_call = match *exact {
                Err(refusal) if BEFORE_10.contains(&number(exact)) => Err(refusal),
                _ => expected,
            };
            let whole = Live { point, flag }.answer(&Slices::of(&point.loan));
            expect(LiveBits::from(&in_one_call), whole)
                .map_err(|failure| format!("{valuing}: in one call: {failure}"))?;
        }
        Ok(())
    })
}

fn placing_call(point: &Point) -> Place {
    Place { unit: point.loan.unit, coordinates: point.coordinates, divisor: point.divisor }
}

/// Hands on the valuing call at the placing that the library gives, where the point is not refused.
fn each_placed(point: &Point, run: impl FnOnce(&Valuing) -> Outcome) -> Outcome {
    let place = placing_call(point);
    match place.evaluated() {
        Ok(placing) => {
            place.check(&Ok(placing))?;
            run(&Valuing { loan: point.loan, placing })
        }
        Err(_) => Ok(()),
    }
}
