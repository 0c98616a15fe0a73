//! Answers at a placing: those at a point that is placed so, as `point` and `lent` have them.

use crate::lent;
use crate::placing::{Placing, point_of};
use crate::point::{self, Exact};
use crate::unit::{Refusal, Unit};

/// What a valuing call is handed, the net's numbers left out.
#[derive(Clone, Copy)]
pub struct Call<'a> {
    pub unit: Unit,
    pub net_length: usize,
    pub corrections: &'a [i16],
    pub uncertainties: &'a [u16],
    pub placing: Placing,
}

impl<'a> Call<'a> {
    /// The call at a point that is placed so. It passes 21, 22, 17, which are checked in this order.
    fn at_point(&self) -> Result<point::Call<'a>, Refusal> {
        let Call { unit, net_length, corrections, uncertainties, placing } = *self;
        let (coordinates, divisor) = point_of(&unit, &placing)?;
        Ok(point::Call { unit, net_length, corrections, uncertainties, coordinates, divisor })
    }

    /// m! D^m of a call that passes 21, 22, 17.
    pub fn denominator(&self) -> Result<i128, Refusal> {
        let point::Call { unit, coordinates, divisor, .. } = self.at_point()?;
        point::place(&unit, coordinates, divisor).map(|placed| placed.denominator)
    }
}

/// By the recurrence. Of the point call's checks 4, 9, 13 are left: a point that is placed passes the others.
pub fn value(call: &Call) -> Exact {
    point::answer(&call.at_point()?)
}

/// From the numbers of a lent net, with 23.
pub fn lent_value(call: &Call, net: &[u32]) -> Exact {
    lent::answer(&call.at_point()?, net)
}

#[cfg(test)]
mod tests {
    use super::*;
    use crate::field::{Block, NEVER_MEASURED};
    use crate::live;
    use crate::net::{Multiplicities, Net};
    use crate::unit::Sizes;

    /// Numbers that the exact and the live call are refused by, 0 where they answer.
    fn numbers(call: &Call, net: &[u32]) -> [u8; 2] {
        let exact = lent_value(call, net);
        let live = live::value(call, exact, true);
        [exact.map_or_else(|refusal| refusal.number, |_| 0), live.map_or_else(|refusal| refusal.number, |_| 0)]
    }

    /// All is wrong at first, and is put right check by check.
    #[test]
    fn checks_in_order() {
        let v = Multiplicities::new([2, 2, 2, 1]).unwrap();
        let mut block = Block::constant(Sizes::new([3, 3, 3]).unwrap(), 7, 5);
        block.corrections[4] = NEVER_MEASURED;
        let mut net = Net::of(v).numbers;
        net[0] += 1;
        let placing = Placing { cell: [2; 3], order: [1, 1, 1], weights: [276, 0, 0, 0] };
        let (corrections, uncertainties) = (&block.corrections[..26], &block.uncertainties[..]);
        let mut call = Call { unit: Unit::EMPTY, net_length: 2196, corrections, uncertainties, placing };
        assert_eq!(numbers(&call, &net[..2196]), [21, 21]);
        call.unit = call.unit.with_net(v);
        assert_eq!(numbers(&call, &net[..2196]), [22, 22]);
        call.unit = call.unit.with_block(block.sizes, block.origin);
        assert_eq!(numbers(&call, &net[..2196]), [17, 17]);
        call.placing.order = [1, 2, 3];
        assert_eq!(numbers(&call, &net[..2196]), [4, 15]);
        call.placing.weights[0] = 275;
        assert_eq!(numbers(&call, &net[..2196]), [4, 4]);
        call.net_length = 2197;
        assert_eq!(numbers(&call, &net), [9, 9]);
        call.corrections = &block.corrections;
        assert_eq!(numbers(&call, &net), [13, 13]);
        let measured = Block::constant(block.sizes, 7, 5);
        call.corrections = &measured.corrections;
        assert_eq!(numbers(&call, &net), [23, 23]);
        net[0] -= 1;
        assert_eq!(numbers(&call, &net), [0, 0]);
        assert_eq!(value(&call), lent_value(&call, &net));
    }
}
