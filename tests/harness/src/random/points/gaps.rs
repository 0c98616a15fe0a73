//! Calls over blocks with gaps, and the uncertainties that stand at these.

use super::super::{pick, shape};
use super::Asked;
use super::case::{Case, is_needed};
use super::faults::gaps_in_window;
use evaluator::field::NEVER_MEASURED;
use evaluator::random::Random;
use evaluator::unit::Sizes;

fn sizes(case: &Case) -> Sizes {
    case.handed.unit.block().expect("a call of a unit with a block")
}

/// A call that is sound but for its gaps: around the window; and in it, where there are none around it or now and then.
pub fn with_gaps(asked: Asked, random: &mut Random) -> Case {
    let mut case = Case::sound(asked, shape(random), random);
    let (sizes, cube, extents) = (sizes(&case), case.cube, case.net.of.extents());
    for index in 0..sizes.entries() {
        if random.below(2) == 0 && !is_needed(sizes.entry(index), cube, extents) {
            case.corrections[index] = NEVER_MEASURED;
        }
    }
    if random.below(4) == 0 || !case.corrections[..sizes.entries()].contains(&NEVER_MEASURED) {
        gaps_in_window(&mut case, random);
    }
    case
}

/// The call's uncertainties with others at the gaps of its block.
pub fn uncertainties(case: &Case, mut at_gap: impl FnMut() -> u16) -> Vec<u16> {
    let mut uncertainties = case.uncertainties.clone();
    for (uncertainty, &correction) in uncertainties.iter_mut().zip(&case.corrections).take(sizes(case).entries()) {
        if correction == NEVER_MEASURED {
            *uncertainty = at_gap();
        }
    }
    uncertainties
}

/// Any that a lent slice can hold.
pub fn any_uncertainty(random: &mut Random) -> u16 {
    let any = random.below(65536) as u16;
    pick(random, &[0, 1, 32767, 65535, any])
}
