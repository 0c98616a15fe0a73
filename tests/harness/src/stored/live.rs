//! The stored live calls, and the stored points asked of the live call.

use super::Words;
use super::points::each_point;
use super::scene::each_point_call;
use crate::Outcome;
use crate::answers::{LiveAnswered, number};
use crate::live::Live;
use crate::report::Tally;
use crate::shelf::Shelf;
use evaluator::live::{self, Floats};

pub fn run(shelf: &Shelf, tally: &mut Tally) -> Outcome {
    each_live(shelf, |live, expected| {
        live.check(&expected)?;
        tally.count(number(&expected));
        Ok(())
    })
}

/// Hands on each call with its stored answer.
pub fn each_live(shelf: &Shelf, mut run: impl FnMut(&Live, LiveAnswered) -> Outcome) -> Outcome {
    each_point_call("live.txt", "live", shelf, |point, mut words| {
        let flag = words.number()?;
        run(&Live { point, flag }, answered(&mut words)?)
    })
}

/// Each stored point with the uncertainty and without it: its stored numbers as floats, or 15 before 12.
pub fn points(shelf: &Shelf, tally: &mut Tally) -> Outcome {
    each_point(shelf, |point, exact| {
        for flag in [1, 0] {
            let expected = live::answer(&point.evaluated(), exact, flag != 0);
            Live { point, flag }.check(&expected)?;
            tally.count(number(&expected));
        }
        Ok(())
    })
}

fn bits(words: &mut Words) -> Outcome<u64> {
    let word = words.word()?;
    u64::from_str_radix(word, 16).map_err(|_| format!("{word} has no bits"))
}

pub fn answered(words: &mut Words) -> Outcome<LiveAnswered> {
    match words.word()? {
        "both" => Ok(Ok(Floats::Both { numerator: bits(words)?, uncertainty: bits(words)? })),
        "shift" => Ok(Ok(Floats::Shift(bits(words)?))),
        "refused" => Ok(Err(words.refusal()?)),
        other => Err(format!("{other} is no result")),
    }
}
