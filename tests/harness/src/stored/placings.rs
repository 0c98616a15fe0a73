//! The stored placing and valuing calls, and the stored points in two calls.

use super::live::each_live;
use super::points::each_point;
use super::scene::each_call;
use super::{Words, each_line, live, points};
use crate::Outcome;
use crate::answers::{Placed, number};
use crate::live::Live;
use crate::placings::{LiveValuing, Place, Valuing};
use crate::report::Tally;
use crate::shelf::Shelf;
use crate::two_calls::{self, Asked};
use evaluator::lent;
use evaluator::placing::Placing;

const FILE: &str = "placings.txt";

pub fn place(tally: &mut Tally) -> Outcome {
    each_line(FILE, |word, words| if word == "place" { place_line(words, tally) } else { Ok(()) })
}

fn place_line(mut words: Words, tally: &mut Tally) -> Outcome {
    let call = Place { unit: words.handed()?, coordinates: words.numbers()?, divisor: words.number()? };
    let expected = placed(&mut words)?;
    call.check(&expected)?;
    tally.count(number(&expected));
    Ok(())
}

pub fn value(shelf: &Shelf, tally: &mut Tally) -> Outcome {
    each_call(FILE, "value", &["place", "live-value"], shelf, |loan, mut words| {
        let valuing = Valuing { loan, placing: placing(&mut words)? };
        let expected = points::answered(&mut words)?;
        valuing.check(&expected)?;
        tally.count(number(&expected));
        Ok(())
    })
}

pub fn live_value(shelf: &Shelf, tally: &mut Tally) -> Outcome {
    each_call(FILE, "live-value", &["place", "value"], shelf, |loan, mut words| {
        let valuing = &Valuing { loan, placing: placing(&mut words)? };
        let call = LiveValuing { valuing, flag: words.number()? };
        let expected = live::answered(&mut words)?;
        call.check(&expected)?;
        tally.count(number(&expected));
        Ok(())
    })
}

/// Each stored point in two calls.
pub fn points(asked: Asked, shelf: &Shelf, tally: &mut Tally) -> Outcome {
    each_point(shelf, |point, exact| asked(point, &exact, tally))
}

/// Each point of the stored live calls in two calls; its exact answer is not stored.
pub fn live_points(shelf: &Shelf, tally: &mut Tally) -> Outcome {
    each_live(shelf, |&Live { point, flag }, _| match flag {
        0 => two_calls::live_value(point, &lent::answer(&point.evaluated(), point.loan.net), tally),
        _ => Ok(()),
    })
}

fn placing(words: &mut Words) -> Outcome<Placing> {
    Ok(Placing { cell: words.numbers()?, order: words.numbers()?, weights: words.numbers()? })
}

fn placed(words: &mut Words) -> Outcome<Placed> {
    match words.word()? {
        "placing" => Ok(Ok(placing(words)?)),
        "refused" => Ok(Err(words.refusal()?)),
        other => Err(format!("{other} is no result")),
    }
}
