//! The commands that take numbers: their arguments, and what they print.

mod arguments;
pub mod placings;

use crate::field::Block;
use crate::formats::listing;
use crate::lent;
use crate::literal;
use crate::live;
use crate::net::Net;
use crate::point::{self, Call, Exact};
use crate::ratio::Ratio;
use crate::unit::{Refusal, told};
use arguments::{Held, flag, multiplicities, no_more, numbers};
use std::fmt::Display;
use std::fs;

/// A point call as it stands on the command line, and the arguments after it.
struct Query<'a> {
    held: Held,
    block: Result<Block, Refusal>,
    coordinates: [i32; 3],
    divisor: u32,
    rest: &'a [String],
}

fn query(arguments: &[String]) -> Result<Query<'_>, String> {
    let (held, rest) = Held::split(arguments)?;
    let (point, rest) = rest.split_at_checked(4).ok_or("X Y Z D and a block")?;
    let ((block, rest), (coordinates, divisor)) = (held.block(rest)?, arguments::point(point)?);
    Ok(Query { held, block, coordinates, divisor, rest })
}

/// Runs the call with a net slice of the given length; a refused file is the answer itself.
fn ask<T: Display>(query: &Query, length: usize, answer: impl Fn(&Call) -> Result<T, Refusal>) -> String {
    let answered = query.block.as_ref().map_err(|refusal| *refusal).and_then(|block| {
        answer(&Call {
            unit: query.held.unit(),
            net_length: length,
            corrections: &block.corrections,
            uncertainties: &block.uncertainties,
            coordinates: query.coordinates,
            divisor: query.divisor,
        })
    });
    told(&answered) + "\n"
}

/// M at a point, by the literal recurrence.
pub fn value(arguments: &[String]) -> Result<String, String> {
    let (counts, point) = arguments.split_at_checked(4).ok_or("V1 V2 V3 V4 X Y Z D")?;
    let [x, y, z, divisor] = numbers::<u32, 4>(point)?;
    if divisor == 0 {
        return Err("a point over 0".to_string());
    }
    let point = [x, y, z].map(|c| Ratio::new(c.into(), divisor.into()));
    let counts = multiplicities(counts)?.counts();
    if literal::on_knot_plane(&point) {
        return Err("the point is on a knot plane".to_string());
    }
    let Ratio { numerator, denominator } = literal::box_spline(&counts, point);
    Ok(format!("{numerator}/{denominator}\n"))
}

pub fn net(arguments: &[String]) -> Result<String, String> {
    Ok(listing(&Net::of(multiplicities(arguments)?)))
}

pub fn point(arguments: &[String]) -> Result<String, String> {
    by_recurrence(arguments, |_, exact| exact)
}

pub fn lent_point(arguments: &[String]) -> Result<String, String> {
    by_net(arguments, |_, exact| exact)
}

pub fn live(arguments: &[String]) -> Result<String, String> {
    let (on, rest) = flag(arguments)?;
    by_recurrence(rest, |call, exact| live::answer(call, exact, on))
}

pub fn lent_live(arguments: &[String]) -> Result<String, String> {
    let (on, rest) = flag(arguments)?;
    by_net(rest, |call, exact| live::answer(call, exact, on))
}

/// What is made of the exact answer by the recurrence.
fn by_recurrence<T: Display>(
    arguments: &[String],
    make: impl Fn(&Call, Exact) -> Result<T, Refusal>,
) -> Result<String, String> {
    let query = query(arguments)?;
    no_more(query.rest)?;
    Ok(ask(&query, query.held.multiplicities.places(), |call| make(call, point::answer(call))))
}

/// What is made of the exact answer from a lent net.
fn by_net<T: Display>(
    arguments: &[String],
    make: impl Fn(&Call, Exact) -> Result<T, Refusal>,
) -> Result<String, String> {
    let query = query(arguments)?;
    let (mut numbers, changes) = match query.rest {
        [option, file, changes @ ..] if option == "--net" => {
            (listed(&fs::read_to_string(file).map_err(|e| format!("{file}: {e}"))?)?, changes)
        }
        changes => (Net::of(query.held.multiplicities).numbers, changes),
    };
    for change in changes {
        let (index, number) = parse_change(change).ok_or_else(|| format!("{change} is not INDEX=NUMBER"))?;
        *numbers.get_mut(index).ok_or_else(|| format!("there is no index {index}"))? = number;
    }
    Ok(ask(&query, numbers.len(), |call| make(call, lent::answer(call, &numbers))))
}

fn parse_change(text: &str) -> Option<(usize, u32)> {
    let (index, number) = text.split_once('=')?;
    Some((index.parse().ok()?, number.parse().ok()?))
}

/// The numbers of a net in the form that command net prints.
fn listed(text: &str) -> Result<Vec<u32>, String> {
    let mut lines = text.lines();
    let header: Vec<&str> = lines.next().unwrap_or("").split(' ').collect();
    let widths = match header[..] {
        ["box", w1, w2, w3, "degree", _] => [w1, w2, w3].map(|w| w.parse::<usize>().ok().filter(|w| *w < 1000)),
        _ => [None; 3],
    };
    let [Some(w1), Some(w2), Some(w3)] = widths else { return Err("a net begins with its box".to_string()) };
    let mut numbers = vec![0; w1 * w2 * w3];
    for line in lines {
        match parse_listed(line) {
            Some(([x, y, z], number)) if x < w1 && y < w2 && z < w3 => numbers[x + w1 * (y + w2 * z)] = number,
            _ => return Err(format!("{line} is no place of the box with its number")),
        }
    }
    Ok(numbers)
}

fn parse_listed(line: &str) -> Option<([usize; 3], u32)> {
    let fields: Option<Vec<u32>> = line.split(' ').map(|word| word.parse().ok()).collect();
    let [x, y, z, number] = <[u32; 4]>::try_from(fields?).ok()?;
    Some(([x, y, z].map(|c| c as usize), number))
}

/// Arguments as they are typed.
#[cfg(test)]
fn words(text: &str) -> Vec<String> {
    text.split(' ').map(String::from).collect()
}

#[cfg(test)]
mod tests {
    use super::*;
    use crate::net::Multiplicities;

    #[test]
    fn both_ways_give_one_answer() {
        let arguments = words("2 1 1 2 5 4 3 -2 0 300 16 22 2117 7 --seed 9");
        assert_eq!(point(&arguments), lent_point(&arguments));
        assert!(point(&arguments).unwrap().starts_with("answer "));
    }

    #[test]
    fn a_point_moves_with_the_origin() {
        let at_zero = words("2 1 1 2 5 4 3 0 0 0 30 22 17 7 --seed 9");
        assert_eq!(point(&words("2 1 1 2 5 4 3 -2 0 300 16 22 2117 7 --seed 9")), point(&at_zero));
        let refused = Ok("refused 12 0\n".to_string());
        assert_eq!(point(&words("2 1 1 2 5 4 3 -2 0 300 16 -1 2117 7 --seed 9")), refused);
        assert!(point(&words("2 1 1 2 5 4 3 -32769 0 0 30 22 17 7 --seed 9")).is_err());
        assert!(point(&words("2 1 1 2 5 4 3 0 0 0 30 22 2147483648 7 --seed 9")).is_err());
    }

    #[test]
    fn a_changed_number_is_refused_by_23() {
        let refused = Ok("refused 23 0\n".to_string());
        assert_eq!(lent_point(&words("1 1 1 1 2 2 2 0 0 0 1 1 1 1 --seed 9 13=2")), refused);
        assert_eq!(lent_live(&words("0 1 1 1 1 2 2 2 0 0 0 1 1 1 1 --seed 9 13=2")), refused);
    }

    #[test]
    fn a_live_answer_begins_by_its_kind() {
        for (flag, kind) in [("1", "both "), ("0", "shift ")] {
            let arguments = words(&format!("{flag} 2 1 1 2 5 4 3 0 0 0 30 22 17 7 --seed 9"));
            assert!(live(&arguments).unwrap().starts_with(kind));
            assert_eq!(live(&arguments), lent_live(&arguments));
        }
        assert!(live(&words("2 1 1 1 1 2 2 2 0 0 0 1 1 1 1 --seed 9")).is_err());
    }

    #[test]
    fn a_value_off_the_knot_planes() {
        assert_eq!(value(&words("1 1 1 1 7 8 9 10")), Ok("7/10\n".to_string()));
        assert!(value(&words("1 1 1 1 7 7 9 10")).is_err());
        assert!(value(&words("1 1 1 1 7 8 9 0")).is_err());
    }

    #[test]
    fn a_listing_reads_as_the_net_it_was_made_from() {
        let net = Net::of(Multiplicities::new([2, 1, 1, 1]).unwrap());
        assert_eq!(listed(&listing(&net)), Ok(net.numbers));
        assert!(listed("box 3 3 3 degree 1\n3 0 0 1\n").is_err());
    }
}
