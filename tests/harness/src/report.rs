//! What was run, counted by the numbers of the answers.

use crate::Outcome;
use std::collections::BTreeMap;
use std::fmt;
use std::io::{self, Write};

/// How many calls answered each number.
#[derive(Default)]
pub struct Tally(BTreeMap<u8, usize>);

impl Tally {
    pub fn count(&mut self, number: u8) {
        *self.0.entry(number).or_default() += 1;
    }

    fn add(&mut self, other: &Tally) {
        for (number, count) in &other.0 {
            *self.0.entry(*number).or_default() += count;
        }
    }
}

impl fmt::Display for Tally {
    fn fmt(&self, f: &mut fmt::Formatter) -> fmt::Result {
        let answered = self.0.get(&0).unwrap_or(&0);
        let refusals = self.0.iter().filter(|(number, _)| **number != 0);
        let refusals: Vec<String> = refusals.map(|(number, count)| format!("{number}: {count}")).collect();
        let by = if refusals.is_empty() { "none".to_string() } else { format!("by {}", refusals.join(", ")) };
        write!(f, "{} calls, {answered} answered, refused {by}", self.0.values().sum::<usize>())
    }
}

/// A call of the interface, and the numbers that some case of it must answer.
#[derive(Clone, Copy)]
pub struct Kind {
    pub name: &'static str,
    numbers: &'static [u8],
}

pub const BUILD: Kind = Kind { name: "build", numbers: &[0, 1, 2, 4] };
pub const FACTORY: Kind = Kind { name: "factory", numbers: &[0, 4] };
pub const INSPECT: Kind = Kind { name: "inspect", numbers: &[0, 3, 4, 14] };
pub const LOAD: Kind = Kind { name: "load", numbers: &[0, 5, 6, 7, 8, 16, 9] };
pub const ANSWER: Kind = Kind { name: "answer", numbers: &[0, 21, 22, 4, 9, 10, 11, 12, 13, 23] };
pub const LIVE: Kind = Kind { name: "live", numbers: &[0, 21, 22, 4, 9, 10, 11, 15, 12, 13, 23] };
pub const PLACE: Kind = Kind { name: "place", numbers: &[0, 21, 22, 10, 11, 12] };
pub const VALUE: Kind = Kind { name: "value", numbers: &[0, 21, 22, 17, 4, 9, 13, 23] };
pub const LIVE_VALUE: Kind = Kind { name: "live value", numbers: &[0, 21, 22, 17, 15, 4, 9, 13, 23] };

const KINDS: [Kind; 9] = [BUILD, FACTORY, INSPECT, LOAD, ANSWER, LIVE, PLACE, VALUE, LIVE_VALUE];

/// The tallies of all groups of cases, by call.
#[derive(Default)]
pub struct Report(BTreeMap<&'static str, Tally>);

impl Report {
    /// Runs a group of cases and prints its line. The title comes first, to be read also where the archive stops the program.
    pub fn group<T>(&mut self, kind: Kind, title: &str, run: impl FnOnce(&mut Tally) -> Outcome<T>) -> Outcome<T> {
        print!("{title}: ");
        io::stdout().flush().map_err(|e| e.to_string())?;
        let mut tally = Tally::default();
        let given = run(&mut tally).map_err(|failure| format!("{title}: {failure}"))?;
        println!("{tally}");
        if tally.0.is_empty() {
            return Err(format!("{title}: no case was tried"));
        }
        self.0.entry(kind.name).or_default().add(&tally);
        Ok(given)
    }

    /// Prints the sums, and fails where a number of a call was never answered.
    pub fn finish(&self) -> Outcome {
        for Kind { name, numbers } in KINDS {
            let tally = self.0.get(name).ok_or(format!("{name} was never called"))?;
            println!("all of {name}: {tally}");
            if let Some(number) = numbers.iter().find(|number| !tally.0.contains_key(number)) {
                return Err(format!("no case of {name} answered {number}"));
            }
        }
        Ok(())
    }
}
