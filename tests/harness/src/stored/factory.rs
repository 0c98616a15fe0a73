//! The stored factory calls.

use super::{Words, each_line, unknown};
use crate::Outcome;
use crate::calls::expect;
use crate::factory::Factory;
use crate::report::Tally;
use crate::shelf::{LentNet, Shelf};
use crate::torskavel::UnitAnswer;
use evaluator::formats::numbers_digest;
use evaluator::unit::Refusal;

/// What the net slice holds before a call.
enum Held {
    Fill { first: u32, step: u32 },
    Net(LentNet),
}

impl Held {
    /// The slice of this length, and what it is for a reader.
    fn slice(&self, shelf: &Shelf, length: usize) -> (Vec<u32>, String) {
        match self {
            Held::Fill { first, step } => {
                let number = |index: u32| first.wrapping_add(step.wrapping_mul(index));
                ((0..length as u32).map(number).collect(), format!("fill {first} {step}"))
            }
            Held::Net(net) => (net.slice(shelf, length), net.to_string()),
        }
    }
}

pub fn run(shelf: &Shelf, tally: &mut Tally) -> Outcome {
    let mut held = Held::Fill { first: 0, step: 0 };
    each_line("factory.txt", |word, mut words| {
        match (word, &mut held) {
            ("fill", _) => held = Held::Fill { first: words.number()?, step: words.number()? },
            ("net", _) => held = Held::Net(LentNet::defined(words.multiplicities()?)),
            ("set", Held::Net(net)) => net.changes.push((words.number()?, words.number()?)),
            ("factory", _) => factory(words, &held, shelf, tally)?,
            (other, _) => unknown(other)?,
        }
        Ok(())
    })
}

fn factory(mut words: Words, held: &Held, shelf: &Shelf, tally: &mut Tally) -> Outcome {
    let unit = words.handed()?;
    let (net, told) = held.slice(shelf, words.number()?);
    let Refusal { number, place } = match words.word()? {
        "unit" => Refusal::from(0),
        "refused" => words.refusal()?,
        other => return Err(format!("{other} is no result")),
    };
    let expected = UnitAnswer { number: number.into(), place, unit: words.handed()?.record() };
    let call = Factory { unit, net: &net, told };
    let left = call.left(expected)?;
    expect(words.word()?, &numbers_digest(&left)).map_err(|failure| format!("{call}: digest: {failure}"))?;
    tally.count(number);
    Ok(())
}
