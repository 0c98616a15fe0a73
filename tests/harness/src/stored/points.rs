//! The stored points.

use super::Words;
use super::scene::each_point_call;
use crate::Outcome;
use crate::answers::{Answered, number};
use crate::calls::Point;
use crate::report::Tally;
use crate::shelf::Shelf;
use evaluator::point::Fraction;

pub fn run(shelf: &Shelf, tally: &mut Tally) -> Outcome {
    each_point(shelf, |point, expected| {
        point.check(&expected)?;
        tally.count(number(&expected));
        Ok(())
    })
}

/// Hands on each call with its stored answer.
pub fn each_point(shelf: &Shelf, mut run: impl FnMut(&Point, Answered) -> Outcome) -> Outcome {
    each_point_call("points.txt", "point", shelf, |point, mut words| run(point, answered(&mut words)?))
}

pub fn answered(words: &mut Words) -> Outcome<Answered> {
    match words.word()? {
        "answer" => {
            let (numerator, uncertainty) = (words.number()?, words.number()?);
            Ok(Ok(Fraction { numerator, uncertainty, denominator: words.number()? }))
        }
        "refused" => Ok(Err(words.refusal()?)),
        other => Err(format!("{other} is no result")),
    }
}
