//! The calls of docs/SPECIFICATION.md as one would write them in plain Rust: safe, with slices and nested
//! loops, and with all refusals in the order of its section 5.4. The unit record is the library's, so that
//! both are handed the same values.
//!
//! Each call comes straight from its section, and tuned after a look at where the time goes; a point in
//! several tuned shapes.

mod build;
mod factory;
mod inspect;
mod load;
mod point;
mod repeat;
mod rows;
mod shape;
mod split;
#[cfg(test)]
mod tests;

pub use build::{build, build_tuned};
pub use factory::{Factory, factory, factory_tuned};
pub use inspect::{defined_order, inspect, inspect_tuned};
pub use load::{Load, load, load_tuned};
pub use point::{Answer, Call, Floats, Fraction, LiveAnswer, SHAPES, Valuing};
pub use point::{answer, live_answer, live_tuned, place, tuned};

use crate::torskavel::{Unit, UnitAnswer};

/// A refusal's number, and the index or position that it speaks of; 0 where it speaks of none.
#[derive(Clone, Copy, PartialEq, Eq, Debug)]
pub struct Refusal {
    pub number: u32,
    pub place: usize,
}

fn refuse<T>(number: u32) -> Result<T, Refusal> {
    refuse_at(number, 0)
}

fn refuse_at<T>(number: u32, place: usize) -> Result<T, Refusal> {
    Err(Refusal { number, place })
}

/// The library's answer, as the calls here give theirs.
pub fn result(answer: UnitAnswer) -> Result<Unit, Refusal> {
    match answer.number {
        0 => Ok(answer.unit),
        number => Err(Refusal { number, place: answer.place }),
    }
}
