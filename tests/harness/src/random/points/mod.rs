//! Random points, of the exact or of the live call: over defined nets and copies of the factory's, with faults,
//! over damaged nets, over gaps, and beside blocks at the origin 0; in two calls; and placings that points have or
//! nearly have.

mod case;
mod copied;
mod damage;
mod faults;
mod gaps;
mod moved;
mod placings;
mod spread;

use super::{Plan, each_case, each_plan, pick, shape};
use crate::Outcome;
use crate::report::Tally;
use crate::shelf::Shelf;
use crate::two_calls;
use case::Case;
pub use copied::over_copied;
use evaluator::point::Call;
use evaluator::random::Random;
use evaluator::{lent, live, point};
pub use moved::{moved, placed_moved};
pub use placings::valued;
pub use spread::Spread;

/// The call that is asked.
#[derive(Clone, Copy)]
pub enum Asked {
    Exact,
    Live,
}

impl Asked {
    fn checks(self) -> &'static [u8] {
        match self {
            Asked::Exact => &[21, 22, 4, 9, 10, 11, 12, 13, 23],
            Asked::Live => &[21, 22, 4, 9, 10, 11, 15, 12, 13, 23],
        }
    }

    /// The greatest divisor that none of its checks refuses.
    fn largest_divisor(self, degree: usize) -> u32 {
        match self {
            Asked::Exact => point::largest_divisor(degree),
            Asked::Live => live::largest_divisor(degree),
        }
    }

    /// A live call's byte for the uncertainty: 0, 1 or any.
    fn flag(self, random: &mut Random) -> Option<u8> {
        match self {
            Asked::Exact => None,
            Asked::Live => {
                let any = random.below(256) as u8;
                Some(pick(random, &[0, 1, any]))
            }
        }
    }
}

fn planned(plan: Plan, asked: Asked, shelf: &Shelf, random: &mut Random) -> Case {
    match plan {
        Plan::Sound => Case::sound(asked, shape(random), random),
        Plan::Faulty(checks) => faults::faulty(asked, checks, shelf, random),
        Plan::Free => faults::free(asked, random),
    }
}

/// Points of all plans in two calls, of the sound ones some over damaged nets and some over gaps.
pub fn in_two_calls(
    of: Asked,
    asked: two_calls::Asked,
    seed: u64,
    count: usize,
    shelf: &Shelf,
    tally: &mut Tally,
) -> Outcome {
    each_plan(seed, count, of.checks(), |plan, random| {
        let case = match (plan, random.below(3)) {
            (Plan::Sound, 0) => over_damaged(pick(random, &damage::WAYS), of, shelf, random),
            (Plan::Sound, 1) => gaps::with_gaps(of, random),
            _ => planned(plan, of, shelf, random),
        };
        let (net, told) = (case.net.slice(shelf, case.net_length), case.net.to_string());
        let point = &case.point(case.loan(&net, &told));
        asked(point, &lent::answer(&point.evaluated(), &net), tally)
    })
}

/// Calls of all plans; the lent net's shares give the expected answers.
pub fn any(asked: Asked, seed: u64, count: usize, shelf: &Shelf, spread: &mut Spread, tally: &mut Tally) -> Outcome {
    each_plan(seed, count, asked.checks(), |plan, random| {
        let case = planned(plan, asked, shelf, random);
        plan.made(case.check(shelf, tally, lent::answer)?)?;
        if let Plan::Sound = plan {
            spread.count(&case);
        }
        Ok(())
    })
}

/// Sound calls; the recurrence gives the expected answers, without a net.
pub fn by_recurrence(asked: Asked, seed: u64, count: usize, shelf: &Shelf, tally: &mut Tally) -> Outcome {
    each_case(seed, count, |_, random| {
        let case = Case::sound(asked, shape(random), random);
        case.check(shelf, tally, |call, _| point::answer(call))?;
        Ok(())
    })
}

/// Sound calls but for the lent net, which is damaged in each way in turn.
pub fn damaged(asked: Asked, seed: u64, count: usize, shelf: &Shelf, tally: &mut Tally) -> Outcome {
    each_case(seed, count, |number, random| {
        let case = over_damaged(damage::WAYS[number % damage::WAYS.len()], asked, shelf, random);
        case.check(shelf, tally, lent::answer)?;
        Ok(())
    })
}

fn over_damaged(damage: damage::Way, asked: Asked, shelf: &Shelf, random: &mut Random) -> Case {
    let mut case = Case::sound(asked, shape(random), random);
    damage(&mut case, shelf, random);
    case
}

/// Calls over blocks with gaps: with any uncertainties at these the answer is that of the evaluator over the same block
/// and over the one that has 0 there; and that one is asked too.
pub fn over_gaps(asked: Asked, seed: u64, count: usize, shelf: &Shelf, tally: &mut Tally) -> Outcome {
    each_case(seed, count, |_, random| {
        let mut case = gaps::with_gaps(asked, random);
        let zeros = gaps::uncertainties(&case, || 0);
        case.uncertainties = gaps::uncertainties(&case, || gaps::any_uncertainty(random));
        let over_zeros = |call: &Call, net: &[u32]| lent::answer(&Call { uncertainties: &zeros, ..*call }, net);
        case.check(shelf, tally, lent::answer)?;
        case.check(shelf, tally, over_zeros)?;
        case.uncertainties = zeros;
        case.check(shelf, tally, lent::answer)?;
        Ok(())
    })
}
