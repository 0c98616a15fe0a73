//! What the library holds and answers: the factory's net or that of an order, the block of a file, the
//! answers of a point.

use crate::live;
use crate::torskavel::{
    self, LivePointAnswer, MAX_ENTRIES, MAX_PLACES, NEVER_MEASURED, Placing, PointAnswer, Unit, UnitAnswer,
};

#[derive(Clone, Copy, PartialEq, Eq)]
pub struct Refusal {
    pub number: u32,
    pub place: usize,
}

/// An index of a box or a table as a place: x + w1×(y + w2×z) is (x, y, z).
pub fn place_of(index: usize, [w1, w2, _]: [usize; 3]) -> [usize; 3] {
    [index % w1, index / w1 % w2, index / w1 / w2]
}

fn index_of([x, y, z]: [usize; 3], [w1, w2, _]: [usize; 3]) -> usize {
    x + w1 * (y + w2 * z)
}

#[derive(PartialEq, Eq)]
pub struct Net {
    pub multiplicities: [usize; 4],
    numbers: Vec<u32>,
}

impl Net {
    pub fn degree(&self) -> usize {
        self.multiplicities.iter().sum::<usize>() - 3
    }

    pub fn extents(&self) -> [usize; 3] {
        let [v1, v2, v3, v4] = self.multiplicities;
        [v1 + v4, v2 + v4, v3 + v4]
    }

    pub fn widths(&self) -> [usize; 3] {
        self.extents().map(|extent| self.degree() * extent + 1)
    }

    pub fn places(&self) -> usize {
        self.widths().iter().product()
    }

    pub fn number_at(&self, place: [usize; 3]) -> u32 {
        self.numbers[index_of(place, self.widths())]
    }
}

pub struct Block {
    pub sizes: [usize; 3],
    pub origin: [i16; 3],
    corrections: Vec<i16>,
    uncertainties: Vec<u16>,
}

impl Block {
    pub fn entries(&self) -> usize {
        self.sizes.iter().product()
    }

    pub fn correction(&self, entry: [usize; 3]) -> i16 {
        self.corrections[index_of(entry, self.sizes)]
    }

    pub fn uncertainty(&self, entry: [usize; 3]) -> u16 {
        self.uncertainties[index_of(entry, self.sizes)]
    }

    pub fn is_gap(&self, entry: [usize; 3]) -> bool {
        self.correction(entry) == NEVER_MEASURED
    }

    /// The entries never measured, by their index.
    pub fn gaps(&self) -> Vec<[usize; 3]> {
        (0..self.entries())
            .map(|index| place_of(index, self.sizes))
            .filter(|&entry| self.is_gap(entry))
            .collect()
    }
}

/// What a call gave that writes a net.
fn given(answer: UnitAnswer, numbers: Vec<u32>) -> (Unit, Result<Net, Refusal>) {
    if answer.number != 0 {
        return (answer.unit, Err(Refusal { number: answer.number, place: answer.place }));
    }
    let Unit { v1, v2, v3, v4, .. } = answer.unit;
    (answer.unit, Ok(Net { multiplicities: [v1, v2, v3, v4].map(usize::from), numbers }))
}

/// The net that an order builds, with room for any.
pub fn build(unit: Unit, order: &[u8]) -> (Unit, Result<Net, Refusal>) {
    let mut numbers = vec![0; MAX_PLACES];
    let mut work = vec![0; MAX_PLACES];
    given(torskavel::build(unit, order, &mut numbers, &mut work), numbers)
}

/// The factory's net, which is copied, into as much room.
pub fn factory(unit: Unit) -> (Unit, Result<Net, Refusal>) {
    let mut numbers = vec![0; MAX_PLACES];
    given(torskavel::factory(unit, &mut numbers), numbers)
}

pub fn load(unit: Unit, file: &[u8]) -> (Unit, Result<Block, Refusal>) {
    let mut corrections = vec![0; MAX_ENTRIES];
    let mut uncertainties = vec![0; MAX_ENTRIES];
    let answer = torskavel::load(unit, file, &mut corrections, &mut uncertainties);
    if answer.number != 0 {
        return (answer.unit, Err(Refusal { number: answer.number, place: answer.place }));
    }
    let Unit { n1, n2, n3, o1, o2, o3, .. } = answer.unit;
    let sizes = [n1, n2, n3].map(usize::from);
    (answer.unit, Ok(Block { sizes, origin: [o1, o2, o3], corrections, uncertainties }))
}

/// N, U and the denominator.
#[derive(Clone, Copy, PartialEq, Eq)]
pub struct Figure {
    pub numerator: i128,
    pub uncertainty: i128,
    pub denominator: i128,
}

fn figure(answer: PointAnswer) -> Result<Figure, Refusal> {
    let PointAnswer { number, place, numerator, uncertainty, denominator } = answer;
    if number != 0 {
        return Err(Refusal { number, place });
    }
    Ok(Figure {
        numerator: numerator.into(),
        uncertainty: uncertainty.into(),
        denominator: denominator.into(),
    })
}

pub fn answer(
    unit: Unit,
    net: &Net,
    block: &Block,
    point: [i32; 3],
    divisor: u32,
) -> Result<Figure, Refusal> {
    let Block { corrections, uncertainties, .. } = block;
    figure(torskavel::answer(unit, &net.numbers, corrections, uncertainties, point, divisor))
}

pub fn value(unit: Unit, net: &Net, block: &Block, placing: Placing) -> Result<Figure, Refusal> {
    let Block { corrections, uncertainties, .. } = block;
    figure(torskavel::value(unit, &net.numbers, corrections, uncertainties, placing))
}

fn floats(answer: LivePointAnswer) -> live::Answer {
    let LivePointAnswer { number, place, numerator, uncertainty } = answer;
    if number != 0 { Err(Refusal { number, place }) } else { Ok([numerator, uncertainty]) }
}

pub fn live_answer(
    unit: Unit,
    net: &Net,
    block: &Block,
    point: [i32; 3],
    divisor: u32,
    with_uncertainty: bool,
) -> live::Answer {
    let Block { corrections: c, uncertainties: u, .. } = block;
    floats(torskavel::live_answer(unit, &net.numbers, c, u, point, divisor, with_uncertainty))
}

pub fn live_value(
    unit: Unit,
    net: &Net,
    block: &Block,
    placing: Placing,
    with_uncertainty: bool,
) -> live::Answer {
    let Block { corrections: c, uncertainties: u, .. } = block;
    floats(torskavel::live_value(unit, &net.numbers, c, u, placing, with_uncertainty))
}
