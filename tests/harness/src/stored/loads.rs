//! The stored loads.

use super::{Words, each_line, unknown};
use crate::Outcome;
use crate::answers::number;
use crate::calls::Load;
use crate::report::Tally;
use evaluator::field::{Block, without_origin};

/// A file, and the arrays that a load of it writes.
#[derive(Default)]
struct Stored {
    file: Vec<u8>,
    corrections: Vec<i16>,
    uncertainties: Vec<u16>,
}

pub fn run(tally: &mut Tally) -> Outcome {
    let mut stored = Stored::default();
    each_line("loads.txt", |word, mut words| {
        match word {
            "file" => stored = Stored::default(),
            "old" => {
                let file = without_origin(&stored.file).ok_or("a file of under 12 bytes")?;
                stored = Stored { file, ..Stored::default() };
            }
            "b" => stored.file.extend(words.rest(|pair| u8::from_str_radix(pair, 16).ok())?),
            "c" => stored.corrections.extend(words.rest(|c| c.parse::<i16>().ok())?),
            "u" => stored.uncertainties.extend(words.rest(|u| u.parse::<u16>().ok())?),
            "load" => load(words, &stored, tally)?,
            other => unknown(other)?,
        }
        Ok(())
    })
}

fn load(mut words: Words, stored: &Stored, tally: &mut Tally) -> Outcome {
    let (unit, lengths) = (words.unit()?, words.numbers()?);
    let expected = words.changed()?.map(|unit| {
        let sizes = unit.block().expect("a loaded block");
        let (corrections, uncertainties) = (stored.corrections.clone(), stored.uncertainties.clone());
        (unit, Block { sizes, origin: unit.o, corrections, uncertainties })
    });
    Load { unit: unit.into(), file: &stored.file, lengths }.check(&expected)?;
    tally.count(number(&expected));
    Ok(())
}
