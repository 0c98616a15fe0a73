//! The live call, its slices between guard zones, held bit for bit to an expected answer and to the exact
//! call.

use crate::Outcome;
use crate::answers::{LiveAnswered, LiveBits};
use crate::calls::{Point, expect, run};
use crate::loan::Slices;
use crate::torskavel::calls::torskavel_live_answer;
use crate::torskavel::{LivePointAnswer, PointAnswer};
use std::fmt;

/// What stands after 15 in the order of the checks, and that none applies.
const AFTER_15: [u32; 4] = [0, 12, 13, 23];

pub struct Live<'a> {
    pub point: &'a Point<'a>,
    /// Any byte; 0 switches the uncertainty off.
    pub flag: u8,
}

impl fmt::Display for Live<'_> {
    fn fmt(&self, f: &mut fmt::Formatter) -> fmt::Result {
        write!(f, "live, flag {}: {}", self.flag, self.point)
    }
}

impl Live<'_> {
    pub fn check(&self, expected: &LiveAnswered) -> Outcome {
        run(self, || self.call(expected))
    }

    fn call(&self, expected: &LiveAnswered) -> Outcome {
        let slices = Slices::of(&self.point.loan);
        let bits = self.answer(&slices);
        expect(LiveBits::from(expected), bits)?;
        slices.kept()?;
        let exact = self.point.answer(&slices);
        agrees(bits, exact, self.flag, &AFTER_15).map_err(|failure| format!("the exact call: {failure}"))
    }

    /// The live call over these slices.
    pub fn answer(&self, slices: &Slices) -> LiveBits {
        let Point { loan, coordinates: [x, y, z], divisor } = *self.point;
        let (net, c, u) = slices.all();
        let (n_length, c_length, u_length) = (net.len(), c.len(), u.len());
        let (unit, net, c, u) = (loan.unit.record(), net.as_ptr(), c.as_ptr(), u.as_ptr());
        // Safety: the pointers and lengths are of slices that live until the call returns. The safe function
        // hands in 0 or 1 alone.
        let answer = unsafe {
            torskavel_live_answer(unit, net, n_length, c, c_length, u, u_length, x, y, z, divisor, self.flag)
        };
        answer.into()
    }
}

/// The exact call answers the same numbers, or refuses alike; where 15 applies, no earlier check does: `after_15` are
/// the numbers that the exact call can then answer.
pub fn agrees(live: LiveBits, exact: PointAnswer, flag: u8, after_15: &[u32]) -> Outcome {
    if live.number == 15 {
        let number = exact.number;
        return after_15.contains(&number).then_some(()).ok_or(format!("15 here, and {number} there"));
    }
    let PointAnswer { number, place, numerator, uncertainty, .. } = exact;
    let uncertainty = if flag == 0 { 0.0 } else { uncertainty as f64 };
    expect(LivePointAnswer { number, place, numerator: numerator as f64, uncertainty }.into(), live)
}
