//! The stored inspections.

use super::{Words, each_line, unknown};
use crate::Outcome;
use crate::answers::number;
use crate::calls::Inspection;
use crate::report::Tally;
use crate::shelf::{LentNet, Shelf};
use evaluator::net::Multiplicities;

pub fn run(shelf: &Shelf, tally: &mut Tally) -> Outcome {
    let mut lent = LentNet::defined(Multiplicities::new([1; 4]).expect("the simple net"));
    each_line("inspections.txt", |word, mut words| {
        match word {
            "net" => lent = LentNet::defined(words.multiplicities()?),
            "set" => lent.changes.push((words.number()?, words.number()?)),
            "inspect" => inspect(words, &lent, shelf, tally)?,
            other => unknown(other)?,
        }
        Ok(())
    })
}

fn inspect(mut words: Words, lent: &LentNet, shelf: &Shelf, tally: &mut Tally) -> Outcome {
    let (unit, v) = (words.unit()?, words.numbers()?);
    let net = lent.slice(shelf, words.number()?);
    let lengths = words.numbers()?;
    let expected = words.changed()?;
    Inspection { unit: unit.into(), v, net: &net, told: lent.to_string(), lengths }.check(&expected)?;
    tally.count(number(&expected));
    Ok(())
}
