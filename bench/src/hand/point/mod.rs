//! A point's placing, and the exact and the live answer at a point and at a placing, with the same checks in
//! several shapes.

mod bernstein;
mod checks;
mod listed;
mod live;
mod outermost;
mod packed;
mod paired;
mod place;
mod possible;
mod straight;
mod window;

use super::Refusal;
use super::shape::Shape;
use bernstein::{Blended, Exact};
use checks::Checked;
use live::{Nested, Straight};
use place::Placing;

pub use checks::{Call, Valuing, placed as place};
pub use live::Floats;

/// N and U over m!×D^m.
#[derive(Clone, Copy, PartialEq, Eq, Debug)]
pub struct Fraction {
    pub numerator: i64,
    pub uncertainty: u64,
    pub denominator: u64,
}

/// What a call makes of the blended numbers.
pub trait Sums {
    type Answer;

    /// Past it 15 refuses, which the exact call has not.
    const LARGEST_DENOMINATOR: u64 = u64::MAX;

    /// The answer, or refusal 23, where `blend` gives the sums at a local place by its index in the net. It is
    /// asked for the local places in their order.
    fn value(
        &self,
        shape: &Shape,
        placing: &Placing,
        blend: impl FnMut(usize) -> Blended,
    ) -> Result<Self::Answer, Refusal>;
}

/// An exact call, at a point or at a placing.
pub type Answer<C> = fn(&C) -> Result<Fraction, Refusal>;
/// A live one; whether the uncertainty is wanted is told besides.
pub type LiveAnswer<C> = fn(&C, bool) -> Result<Floats, Refusal>;

/// Straight from the specification.
pub fn answer<'a>(call: &impl Checked<'a>) -> Result<Fraction, Refusal> {
    straight::answer(call, &Exact)
}

/// Straight from the specification.
pub fn live_answer<'a>(call: &impl Checked<'a>, with_uncertainty: bool) -> Result<Floats, Refusal> {
    straight::answer(call, &Straight { with_uncertainty })
}

/// Those tuned after a look at where the time goes. Which is the fastest depends on the net.
pub const SHAPES: [&str; 4] = ["tables", "window outermost", "packed", "one multiplication"];

pub fn tuned<'a, C: Checked<'a>>() -> [Answer<C>; 4] {
    [
        |call| listed::answer(call, &Exact),
        |call| outermost::answer(call, &Exact),
        |call| packed::answer(call, &Exact),
        |call| paired::answer(call, &Exact),
    ]
}

/// The same shapes with sums of floats.
pub fn live_tuned<'a, C: Checked<'a>>() -> [LiveAnswer<C>; 4] {
    [
        |call, with_uncertainty| listed::answer(call, &Nested { with_uncertainty }),
        live_outermost,
        |call, with_uncertainty| packed::answer(call, &Nested { with_uncertainty }),
        |call, with_uncertainty| paired::answer(call, &Nested { with_uncertainty }),
    ]
}

/// The uncertainties are blended only where they are wanted.
fn live_outermost<'a>(call: &impl Checked<'a>, with_uncertainty: bool) -> Result<Floats, Refusal> {
    let by = &Nested { with_uncertainty };
    if with_uncertainty { outermost::answer(call, by) } else { outermost::answer_by_corrections(call, by) }
}
