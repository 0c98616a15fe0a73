//! The unit record, its limits, and refusals: docs/SPECIFICATION.md, 4 and 5.

use crate::formats::join;
use crate::net::Multiplicities;
use std::fmt;

const LARGEST_SIZE: usize = 64;
const LARGEST_BLOCK: usize = 4096;

/// The sizes n1, n2, n3 of a block, within their limits.
#[derive(Clone, Copy, PartialEq, Eq, Debug)]
pub struct Sizes([usize; 3]);

impl Sizes {
    pub fn new(n: [usize; 3]) -> Option<Sizes> {
        let allowed = n.iter().all(|n| (1..=LARGEST_SIZE).contains(n)) && n.iter().product::<usize>() <= LARGEST_BLOCK;
        allowed.then_some(Sizes(n))
    }

    pub fn axes(&self) -> [usize; 3] {
        self.0
    }

    /// n, the number of entries.
    pub fn entries(&self) -> usize {
        self.0.iter().product()
    }

    /// (j1, j2, j3) of an index.
    pub fn entry(&self, index: usize) -> [usize; 3] {
        [index % self.0[0], index / self.0[0] % self.0[1], index / self.0[0] / self.0[1]]
    }
}

/// Where a block's first entry stands, o1, o2, o3, counted in entries.
pub type Origin = [i16; 3];

/// Any values, also such as break the limits; an origin has none.
#[derive(Clone, Copy, PartialEq, Eq, Debug)]
pub struct Unit {
    pub has_net: bool,
    pub v: [u8; 4],
    pub has_block: bool,
    pub n: [u16; 3],
    pub o: Origin,
}

impl Unit {
    pub const EMPTY: Unit = Unit { has_net: false, v: [0; 4], has_block: false, n: [0; 3], o: [0; 3] };

    pub fn with_net(self, multiplicities: Multiplicities) -> Unit {
        Unit { has_net: true, v: multiplicities.counts().map(|v| v as u8), ..self }
    }

    pub fn with_block(self, sizes: Sizes, origin: Origin) -> Unit {
        Unit { has_block: true, n: sizes.0.map(|n| n as u16), o: origin, ..self }
    }

    /// The net that the unit counts as having.
    pub fn net(&self) -> Option<Multiplicities> {
        Multiplicities::new(self.v.map(usize::from)).filter(|_| self.has_net)
    }

    /// The block that the unit counts as having, whatever its origin.
    pub fn block(&self) -> Option<Sizes> {
        Sizes::new(self.n.map(usize::from)).filter(|_| self.has_block)
    }
}

impl fmt::Display for Unit {
    fn fmt(&self, f: &mut fmt::Formatter) -> fmt::Result {
        let flags = [self.has_net, self.has_block].map(u8::from);
        write!(f, "{} {} {} {} {}", flags[0], join(self.v), flags[1], join(self.n), join(self.o))
    }
}

/// A refusal's number, and the index or position that it speaks of; 0 where it speaks of none.
#[derive(Clone, Copy, PartialEq, Eq, Debug)]
pub struct Refusal {
    pub number: u8,
    pub place: usize,
}

impl Refusal {
    pub fn at(number: u8, place: usize) -> Refusal {
        Refusal { number, place }
    }
}

impl From<u8> for Refusal {
    fn from(number: u8) -> Refusal {
        Refusal { number, place: 0 }
    }
}

impl fmt::Display for Refusal {
    fn fmt(&self, f: &mut fmt::Formatter) -> fmt::Result {
        write!(f, "refused {} {}", self.number, self.place)
    }
}

/// The text of an answer or of its refusal.
pub fn told(answer: &Result<impl fmt::Display, Refusal>) -> String {
    answer.as_ref().map_or_else(Refusal::to_string, |answer| answer.to_string())
}

/// Refuses where a condition applies.
pub fn refuse_if(condition: bool, refusal: impl Into<Refusal>) -> Result<(), Refusal> {
    if condition { Err(refusal.into()) } else { Ok(()) }
}

#[cfg(test)]
mod tests {
    use super::*;

    #[test]
    fn values_that_break_the_limits_count_as_nothing() {
        let unit = Unit { has_net: true, v: [3; 4], has_block: true, n: [64, 64, 1], o: [0; 3] };
        assert!(unit.net().is_some() && unit.block().is_some());
        assert_eq!(Unit { o: [i16::MIN, i16::MAX, -1], ..unit }.block(), unit.block());
        for v in [[0, 1, 1, 1], [3, 3, 3, 4], [255; 4]] {
            assert_eq!(Unit { v, ..unit }.net(), None);
        }
        for n in [[0, 1, 1], [65, 1, 1], [64, 64, 2], [65535; 3]] {
            assert_eq!(Unit { n, ..unit }.block(), None);
        }
        assert_eq!(Unit { has_net: false, ..unit }.net(), None);
        assert_eq!(Unit { has_block: false, ..unit }.block(), None);
    }

    #[test]
    fn the_first_axis_is_the_fastest() {
        let sizes = Sizes::new([3, 4, 5]).unwrap();
        assert_eq!(sizes.entry(1 + 3 * (2 + 4 * 3)), [1, 2, 3]);
    }
}
