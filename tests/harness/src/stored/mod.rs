//! The stored vectors: their lines, read word by word, and a module for each kind of file.

pub mod builds;
pub mod copied;
pub mod factory;
pub mod inspections;
pub mod live;
pub mod loads;
pub mod nets;
pub mod placings;
pub mod points;
mod scene;

use crate::Outcome;
use crate::answers::{Changed, Handed};
use evaluator::net::Multiplicities;
use evaluator::unit::{Refusal, Unit};
use std::fs;
use std::path::Path;
use std::str::{FromStr, SplitAsciiWhitespace};

const VECTORS: &str = concat!(env!("CARGO_MANIFEST_DIR"), "/../../vectors");

/// The text of a file, without the lines at its top that say what the others mean.
pub fn text(name: &str) -> Outcome<String> {
    let text = fs::read_to_string(Path::new(VECTORS).join(name)).map_err(|e| e.to_string())?;
    Ok(text.split_inclusive('\n').filter(|line| !line.starts_with('#')).collect())
}

/// Hands on each line that is not of the top, its first word apart. A failure says on which line it came about.
pub fn each_line(name: &str, mut run: impl FnMut(&str, Words) -> Outcome) -> Outcome {
    let text = fs::read_to_string(Path::new(VECTORS).join(name)).map_err(|e| e.to_string())?;
    for (index, line) in text.lines().enumerate().filter(|(_, line)| !line.starts_with('#')) {
        let mut words = Words(line.split_ascii_whitespace());
        let ran = words.word().and_then(|word| run(word, words));
        ran.map_err(|failure| format!("line {}: {failure}", index + 1))?;
    }
    Ok(())
}

/// The words of a line that were not yet read.
pub struct Words<'a>(SplitAsciiWhitespace<'a>);

impl<'a> Words<'a> {
    pub fn word(&mut self) -> Outcome<&'a str> {
        self.0.next().ok_or("a word is missing".to_string())
    }

    pub fn number<T: FromStr>(&mut self) -> Outcome<T> {
        let word = self.word()?;
        word.parse().map_err(|_| format!("{word} is no number of its kind"))
    }

    pub fn numbers<T: FromStr + Copy + Default, const N: usize>(&mut self) -> Outcome<[T; N]> {
        let mut numbers = [T::default(); N];
        for number in &mut numbers {
            *number = self.number()?;
        }
        Ok(numbers)
    }

    pub fn list<T: FromStr>(&mut self, count: usize) -> Outcome<Vec<T>> {
        (0..count).map(|_| self.number()).collect()
    }

    /// The words up to the line's end, each read by `read`.
    pub fn rest<T>(&mut self, read: impl Fn(&str) -> Option<T>) -> Outcome<Vec<T>> {
        self.0.by_ref().map(|word| read(word).ok_or(format!("{word} is no number of its kind"))).collect()
    }

    pub fn multiplicities(&mut self) -> Outcome<Multiplicities> {
        Multiplicities::new(self.numbers()?).ok_or("no multiplicities".to_string())
    }

    pub fn unit(&mut self) -> Outcome<Unit> {
        Ok(self.handed()?.unit)
    }

    /// A record, its flags as they stand.
    pub fn handed(&mut self) -> Outcome<Handed> {
        let has_net = self.number()?;
        let v = self.numbers()?;
        let has_block = self.number()?;
        Ok(Handed::of([has_net, has_block], v, self.numbers()?, self.numbers()?))
    }

    pub fn refusal(&mut self) -> Outcome<Refusal> {
        Ok(Refusal::at(self.number()?, self.number()?))
    }

    /// What a call that changes the unit must answer.
    pub fn changed(&mut self) -> Outcome<Changed> {
        match self.word()? {
            "unit" => Ok(Ok(self.unit()?)),
            "refused" => Ok(Err(self.refusal()?)),
            other => Err(format!("{other} is no result")),
        }
    }
}

/// For a line whose first word the file should not have.
pub fn unknown(word: &str) -> Outcome {
    Err(format!("{word} is no word of this file"))
}
