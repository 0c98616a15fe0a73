//! The stored builds.

use super::{Words, each_line, unknown};
use crate::Outcome;
use crate::answers::number;
use crate::calls::Build;
use crate::report::Tally;
use crate::shelf::Shelf;

pub fn run(shelf: &Shelf, tally: &mut Tally) -> Outcome {
    each_line("builds.txt", |word, words| match word {
        "build" => build(words, shelf, tally),
        other => unknown(other),
    })
}

fn build(mut words: Words, shelf: &Shelf, tally: &mut Tally) -> Outcome {
    let (unit, lengths) = (words.unit()?, words.numbers()?);
    let count = words.number()?;
    let order = words.list(count)?;
    let expected = words.changed()?;
    let net = expected.ok().and_then(|unit| unit.net()).map_or(&[][..], |v| &shelf.net(v).numbers);
    Build { unit: unit.into(), order: &order, lengths }.check(&expected, net)?;
    tally.count(number(&expected));
    Ok(())
}
