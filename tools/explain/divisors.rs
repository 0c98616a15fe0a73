//! What is told of a divisor that is refused: by 10, by 11, or by 15 in a live call.

use crate::sums::denominator;
use crate::torskavel::{MAX_DENOMINATOR, MAX_DIVISOR, MAX_LIVE_DENOMINATOR, refused};

/// The largest divisor whose denominator is within a limit.
pub fn largest(degree: usize, limit: u64) -> u32 {
    let fits = |divisor: &u32| denominator(degree, *divisor) <= limit.into();
    (1..=MAX_DIVISOR).take_while(fits).last().unwrap_or(0)
}

/// The largest divisor that a degree allows in a live call.
pub fn largest_live(degree: usize) -> u32 {
    largest(degree, MAX_LIVE_DENOMINATOR)
}

/// Where 15 stands among the checks.
pub const LOOKED_AT: &str = "looked at in a live call alone, after 11 and before 12: the point itself was \
                             not looked at; of a placing after 17 and before 4";

pub fn wrong(degree: Option<usize>, number: u32) -> String {
    let limit = match number {
        refused::DIVISOR => return "the divisor is 0 or above 4096".to_string(),
        refused::DENOMINATOR => "2^48",
        _ => "2^37, the most in a live call",
    };
    let power = degree.map_or(String::new(), |m| format!(" {m}! x D^{m}"));
    format!("the denominator{power} would pass {limit}")
}

pub fn to_do(degree: Option<usize>, number: u32) -> String {
    let live = number == refused::LIVE_DENOMINATOR;
    let divisor = match degree {
        None => "a smaller divisor".to_string(),
        Some(m) => {
            let largest = if live { largest_live(m) } else { largest(m, MAX_DENOMINATOR) };
            let there = if live { " in a live call" } else { "" };
            format!("a divisor from 1 to {largest}, the largest for degree {m}{there}")
        }
    };
    format!("send {divisor}{}", if live { ", or ask the exact call" } else { "" })
}
