//! The commands of placings.

use super::arguments::{self, Held, flag, no_more, numbers};
use crate::field::Block;
use crate::live;
use crate::placing::{self, Placing};
use crate::point::Exact;
use crate::unit::{Refusal, told};
use crate::value::{self, Call};
use std::fmt::Display;

/// How many words a placing has.
const FIELDS: usize = 10;

pub fn place(arguments: &[String]) -> Result<String, String> {
    let (held, rest) = Held::split(arguments)?;
    let (coordinates, divisor) = arguments::point(rest)?;
    let placed = placing::place(&held.unit(), coordinates, divisor).map(|placing| format!("placing {placing}"));
    Ok(told(&placed) + "\n")
}

pub fn value_at(arguments: &[String]) -> Result<String, String> {
    by_recurrence(arguments, |_, exact| exact)
}

pub fn live_value_at(arguments: &[String]) -> Result<String, String> {
    let (on, rest) = flag(arguments)?;
    by_recurrence(rest, |call, exact| live::value(call, exact, on))
}

fn read_placing(words: &[String]) -> Result<Placing, String> {
    Ok(Placing { cell: numbers(&words[..3])?, order: numbers(&words[3..6])?, weights: numbers(&words[6..])? })
}

/// What is made of the exact answer; a refused file is the answer itself.
fn by_recurrence<T: Display>(
    arguments: &[String],
    make: impl Fn(&Call, Exact) -> Result<T, Refusal>,
) -> Result<String, String> {
    let (held, rest) = Held::split(arguments)?;
    let (fields, rest) = rest.split_at_checked(FIELDS).ok_or("the ten numbers of a placing and a block")?;
    let ((block, rest), placing) = (held.block(rest)?, read_placing(fields)?);
    no_more(rest)?;
    let answered = block.and_then(|Block { corrections, uncertainties, .. }| {
        let (unit, net_length) = (held.unit(), held.multiplicities.places());
        let call = Call { unit, net_length, corrections: &corrections, uncertainties: &uncertainties, placing };
        make(&call, value::value(&call))
    });
    Ok(told(&answered) + "\n")
}

#[cfg(test)]
mod tests {
    use super::super::{live, point, words};
    use super::*;

    #[test]
    fn a_placing_is_valued_as_its_point() {
        let placed = place(&words("2 1 1 1 4 3 2 0 0 0 10 5 7 4")).unwrap();
        assert_eq!(placed, "placing 2 1 1 3 1 2 1 1 1 1\n");
        assert_eq!(place(&words("2 1 1 1 4 3 2 -5 1 -2 -10 9 -1 4")), Ok(placed.clone()));
        let placing = placed.trim_end().trim_start_matches("placing ");
        let at = words(&format!("2 1 1 1 4 3 2 0 0 0 {placing} --seed 9"));
        assert_eq!(value_at(&at), point(&words("2 1 1 1 4 3 2 0 0 0 10 5 7 4 --seed 9")));
        for flag in ["0", "1"] {
            let with_flag = |rest: &str| words(&format!("{flag} {rest}"));
            let at = with_flag(&format!("2 1 1 1 4 3 2 0 0 0 {placing} --seed 9"));
            assert_eq!(live_value_at(&at), live(&with_flag("2 1 1 1 4 3 2 0 0 0 10 5 7 4 --seed 9")));
        }
    }

    #[test]
    fn what_is_no_placing_is_refused() {
        assert_eq!(place(&words("2 1 1 1 4 3 2 0 0 0 7 5 7 4")), Ok("refused 12 0\n".to_string()));
        let refused = Ok("refused 17 0\n".to_string());
        assert_eq!(value_at(&words("2 1 1 1 4 3 2 0 0 0 2 1 1 3 1 1 1 1 1 1 --seed 9")), refused);
        assert_eq!(live_value_at(&words("1 2 1 1 1 4 3 2 0 0 0 2 1 1 3 1 1 1 1 1 1 --seed 9")), refused);
        assert!(value_at(&words("2 1 1 1 4 3 2 0 0 0 2 1 1 3 1 256 1 1 1 1 --seed 9")).is_err());
    }
}
