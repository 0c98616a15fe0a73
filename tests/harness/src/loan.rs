//! What point calls and valuing calls are handed beside the point or its placing: a unit, a net and a block.

use crate::Outcome;
use crate::answers::Handed;
use crate::calls::brief;
use crate::guard::Lent;
use std::fmt;

#[derive(Clone, Copy)]
pub struct Loan<'a> {
    pub unit: Handed,
    /// The net slice, and what it is for a reader.
    pub net: &'a [u32],
    pub told: &'a str,
    pub corrections: &'a [i16],
    pub uncertainties: &'a [u16],
}

/// The slices; the unit is told before the point.
impl fmt::Display for Loan<'_> {
    fn fmt(&self, f: &mut fmt::Formatter) -> fmt::Result {
        let Loan { net, told, corrections, uncertainties, .. } = self;
        write!(f, "net slice of {} lent {told}, ", net.len())?;
        write!(f, "corrections of {} {}, ", corrections.len(), brief(corrections))?;
        write!(f, "uncertainties of {} {}", uncertainties.len(), brief(uncertainties))
    }
}

/// The slices between guard zones.
pub struct Slices {
    net: Lent<u32>,
    corrections: Lent<i16>,
    uncertainties: Lent<u16>,
}

impl Slices {
    pub fn of(loan: &Loan) -> Slices {
        let net = Lent::of("net", loan.net);
        let corrections = Lent::of("corrections", loan.corrections);
        Slices { net, corrections, uncertainties: Lent::of("uncertainties", loan.uncertainties) }
    }

    pub fn all(&self) -> (&[u32], &[i16], &[u16]) {
        (self.net.slice(), self.corrections.slice(), self.uncertainties.slice())
    }

    pub fn kept(&self) -> Outcome {
        self.net.kept()?;
        self.corrections.kept()?;
        self.uncertainties.kept()
    }
}
