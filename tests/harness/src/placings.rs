//! The placing call, and the valuing calls, exact and live, with their slices between guard zones.

use crate::Outcome;
use crate::answers::{Answered, Handed, LiveAnswered, LiveBits, Placed, placing_answer, placing_record, point_answer};
use crate::calls::{expect, run};
use crate::live::agrees;
use crate::loan::{Loan, Slices};
use crate::torskavel::calls::torskavel_live_value;
use crate::torskavel::{self, PointAnswer};
use evaluator::formats::join;
use evaluator::placing::{self, Placing};
use evaluator::value::Call;
use std::fmt;

/// What stands after 15 in the order of the valuing calls' checks, and that none applies.
const AFTER_15: [u32; 5] = [0, 4, 9, 13, 23];

pub struct Place {
    pub unit: Handed,
    pub coordinates: [i32; 3],
    pub divisor: u32,
}

impl fmt::Display for Place {
    fn fmt(&self, f: &mut fmt::Formatter) -> fmt::Result {
        write!(f, "place unit {} point {} over {}", self.unit, join(self.coordinates), self.divisor)
    }
}

impl Place {
    pub fn check(&self, expected: &Placed) -> Outcome {
        let answer = || torskavel::place(self.unit.record(), self.coordinates, self.divisor);
        run(self, || expect(placing_answer(expected), answer()))
    }

    /// What the evaluator answers.
    pub fn evaluated(&self) -> Placed {
        placing::place(&self.unit.unit, self.coordinates, self.divisor)
    }
}

pub struct Valuing<'a> {
    pub loan: Loan<'a>,
    pub placing: Placing,
}

impl fmt::Display for Valuing<'_> {
    fn fmt(&self, f: &mut fmt::Formatter) -> fmt::Result {
        let Valuing { loan, placing } = self;
        write!(f, "value unit {} placing {placing}, {loan}", loan.unit)
    }
}

impl Valuing<'_> {
    pub fn check(&self, expected: &Answered) -> Outcome {
        run(self, || {
            let slices = Slices::of(&self.loan);
            expect(point_answer(expected), self.answer(&slices))?;
            slices.kept()
        })
    }

    /// What the evaluator is handed, the net apart.
    pub fn evaluated(&self) -> Call<'_> {
        let Valuing { loan: Loan { unit, net, corrections, uncertainties, .. }, placing } = *self;
        Call { unit: unit.unit, net_length: net.len(), corrections, uncertainties, placing }
    }

    /// The exact call over these slices.
    fn answer(&self, slices: &Slices) -> PointAnswer {
        let (net, c, u) = slices.all();
        torskavel::value(self.loan.unit.record(), net, c, u, placing_record(&self.placing))
    }
}

pub struct LiveValuing<'a> {
    pub valuing: &'a Valuing<'a>,
    /// Any byte; 0 switches the uncertainty off.
    pub flag: u8,
}

impl fmt::Display for LiveValuing<'_> {
    fn fmt(&self, f: &mut fmt::Formatter) -> fmt::Result {
        write!(f, "live, flag {}: {}", self.flag, self.valuing)
    }
}

impl LiveValuing<'_> {
    /// Held to the exact valuing call too.
    pub fn check(&self, expected: &LiveAnswered) -> Outcome {
        run(self, || {
            let slices = Slices::of(&self.valuing.loan);
            let bits = self.answer(&slices);
            expect(LiveBits::from(expected), bits)?;
            slices.kept()?;
            let exact = self.valuing.answer(&slices);
            agrees(bits, exact, self.flag, &AFTER_15).map_err(|failure| format!("the exact call: {failure}"))
        })
    }

    fn answer(&self, slices: &Slices) -> LiveBits {
        let Valuing { loan, placing } = self.valuing;
        let (net, c, u) = slices.all();
        let (n_length, c_length, u_length) = (net.len(), c.len(), u.len());
        let (unit, placing) = (loan.unit.record(), placing_record(placing));
        let (net, c, u) = (net.as_ptr(), c.as_ptr(), u.as_ptr());
        // Safety: the pointers and lengths are of slices that live until the call returns. The safe function
        // hands in 0 or 1 alone.
        let answer = unsafe { torskavel_live_value(unit, net, n_length, c, c_length, u, u_length, placing, self.flag) };
        answer.into()
    }
}
