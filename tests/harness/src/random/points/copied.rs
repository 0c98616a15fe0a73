//! Points over nets that a factory call has copied into slices which held something else.

use super::super::factory::copied;
use super::super::{any_bytes, each_case};
use super::Asked;
use super::case::Case;
use crate::Outcome;
use crate::answers::Handed;
use crate::report::Tally;
use crate::shelf::Shelf;
use evaluator::calls::factory_shape;
use evaluator::point;
use evaluator::unit::Unit;

/// Sound calls after a factory call, which gives the unit its net; the recurrence gives the expected answers.
pub fn over_copied(asked: Asked, seed: u64, count: usize, shelf: &Shelf, tally: &mut Tally) -> Outcome {
    each_case(seed, count, |_, random| {
        let case = Case::sound(asked, factory_shape(), random);
        let Handed { unit: Unit { has_net, v, .. }, absent } = any_bytes(random);
        let unit = Handed { unit: Unit { has_net, v, ..case.handed.unit }, absent };
        let net = copied(unit, case.net_length, shelf, random)?;
        case.check_over(&net, "a copy", tally, |call, _| point::answer(call))?;
        Ok(())
    })
}
