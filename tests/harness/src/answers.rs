//! The evaluator's units and answers as the records of the C interface.

use crate::torskavel::{self, LivePointAnswer, PlacingAnswer, PointAnswer, Unit as Record, UnitAnswer};
use evaluator::field::Block;
use evaluator::live::Floats;
use evaluator::placing::Placing;
use evaluator::point::Fraction;
use evaluator::unit::{Origin, Refusal, Unit};
use std::fmt;

pub type Changed = Result<Unit, Refusal>;
pub type Loaded = Result<(Unit, Block), Refusal>;
pub type Placed = Result<Placing, Refusal>;
pub type Answered = Result<Fraction, Refusal>;
pub type LiveAnswered = Result<Floats, Refusal>;

/// A unit, and the bytes of its flags, of net and block, where they are not set: any but 1.
#[derive(Clone, Copy)]
pub struct Handed {
    pub unit: Unit,
    pub absent: [u8; 2],
}

impl Handed {
    /// Of any bytes for flags.
    pub fn of([has_net, has_block]: [u8; 2], v: [u8; 4], n: [u16; 3], o: Origin) -> Handed {
        let unit = Unit { has_net: has_net == 1, v, has_block: has_block == 1, n, o };
        Handed { unit, absent: [has_net, has_block] }
    }

    pub fn record(&self) -> Record {
        let Unit { has_net, v: [v1, v2, v3, v4], has_block, n: [n1, n2, n3], o: [o1, o2, o3] } = self.unit;
        let flag = |set: bool, absent: u8| if set { 1 } else { absent };
        let (has_net, has_block) = (flag(has_net, self.absent[0]), flag(has_block, self.absent[1]));
        Record { has_net, v1, v2, v3, v4, has_block, n1, n2, n3, o1, o2, o3 }
    }

    /// What a call that sets the net half must answer: all bytes of the block half are as handed in.
    pub fn net_answer(&self, changed: &Changed) -> UnitAnswer {
        self.answer(changed, |before, after| Record { has_block: before.has_block, ..after })
    }

    /// What a load must answer: all bytes of the net half are as handed in.
    pub fn block_answer(&self, changed: &Changed) -> UnitAnswer {
        self.answer(changed, |before, after| Record { has_net: before.has_net, ..after })
    }

    /// A refused call answers the record that it was handed.
    fn answer(&self, changed: &Changed, keep: impl Fn(Record, Record) -> Record) -> UnitAnswer {
        let before = self.record();
        match changed {
            Ok(unit) => UnitAnswer { number: 0, place: 0, unit: keep(before, Handed::from(*unit).record()) },
            Err(refusal) => UnitAnswer { number: refusal.number.into(), place: refusal.place, unit: before },
        }
    }
}

impl From<Unit> for Handed {
    fn from(unit: Unit) -> Handed {
        Handed { unit, absent: [0; 2] }
    }
}

impl fmt::Display for Handed {
    fn fmt(&self, f: &mut fmt::Formatter) -> fmt::Result {
        let Record { has_net, v1, v2, v3, v4, has_block, n1, n2, n3, o1, o2, o3 } = self.record();
        write!(f, "{has_net} {v1} {v2} {v3} {v4} {has_block} {n1} {n2} {n3} {o1} {o2} {o3}")
    }
}

/// Number and place of an answer.
fn outcome<T>(answered: &Result<T, Refusal>) -> (u32, usize) {
    answered.as_ref().err().map_or((0, 0), |refusal| (refusal.number.into(), refusal.place))
}

pub fn placing_record(placing: &Placing) -> torskavel::Placing {
    let Placing { cell: [k1, k2, k3], order: [p, r, s], weights: [l0, l1, l2, l3] } = *placing;
    torskavel::Placing { k1, k2, k3, p, r, s, l0, l1, l2, l3 }
}

/// A refused call answers zeros.
pub fn placing_answer(placed: &Placed) -> PlacingAnswer {
    let (number, place) = outcome(placed);
    let zeros = Placing { cell: [0; 3], order: [0; 3], weights: [0; 4] };
    PlacingAnswer { number, place, placing: placing_record(&placed.unwrap_or(zeros)) }
}

/// A refused call answers zeros.
pub fn point_answer(answered: &Answered) -> PointAnswer {
    let (number, place) = outcome(answered);
    let zeros = Fraction { numerator: 0, uncertainty: 0, denominator: 0 };
    let Fraction { numerator, uncertainty, denominator } = answered.unwrap_or(zeros);
    PointAnswer { number, place, numerator, uncertainty, denominator }
}

/// A live answer with its floats as bits: so -0.0 is not +0.0, which a zero must be.
#[derive(Clone, Copy, PartialEq, Eq, Debug)]
pub struct LiveBits {
    pub number: u32,
    pub place: usize,
    pub numerator: u64,
    pub uncertainty: u64,
}

impl From<LivePointAnswer> for LiveBits {
    fn from(answer: LivePointAnswer) -> LiveBits {
        let LivePointAnswer { number, place, numerator, uncertainty } = answer;
        LiveBits { number, place, numerator: numerator.to_bits(), uncertainty: uncertainty.to_bits() }
    }
}

/// A refused call answers +0.0 twice, one without the uncertainty does so for it.
impl From<&LiveAnswered> for LiveBits {
    fn from(answered: &LiveAnswered) -> LiveBits {
        let (number, place) = outcome(answered);
        let (numerator, uncertainty) = match *answered {
            Ok(Floats::Both { numerator, uncertainty }) => (numerator, uncertainty),
            Ok(Floats::Shift(numerator)) => (numerator, 0),
            Err(_) => (0, 0),
        };
        LiveBits { number, place, numerator, uncertainty }
    }
}

/// The number of a call's answer.
pub fn number<T>(answer: &Result<T, Refusal>) -> u8 {
    answer.as_ref().err().map_or(0, |refusal| refusal.number)
}
