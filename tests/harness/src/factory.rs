//! The factory call, its net slice between guard zones.

use crate::Outcome;
use crate::answers::{Changed, Handed};
use crate::calls::{expect, run};
use crate::guard::Lent;
use crate::torskavel::{self, UnitAnswer};
use std::fmt;

pub struct Factory<'a> {
    pub unit: Handed,
    /// The net slice before the call, and what it is for a reader.
    pub net: &'a [u32],
    pub told: String,
}

impl fmt::Display for Factory<'_> {
    fn fmt(&self, f: &mut fmt::Formatter) -> fmt::Result {
        write!(f, "factory unit {} net slice of {} that holds {}", self.unit, self.net.len(), self.told)
    }
}

impl Factory<'_> {
    /// Makes the call. `after` is the whole slice as it must be afterwards.
    pub fn check(&self, expected: &Changed, after: &[u32]) -> Outcome {
        run(self, || {
            let (answer, net) = self.call();
            expect(self.unit.net_answer(expected), answer)?;
            net.holds(after)
        })
    }

    /// Makes the call, and hands on the slice that it left.
    pub fn left(&self, expected: UnitAnswer) -> Outcome<Vec<u32>> {
        run(self, || {
            let (answer, net) = self.call();
            expect(expected, answer)?;
            net.zones_kept()?;
            Ok(net.slice().to_vec())
        })
    }

    fn call(&self) -> (UnitAnswer, Lent<u32>) {
        let mut net = Lent::of("net", self.net);
        (torskavel::factory(self.unit.record(), net.slice_mut()), net)
    }
}
