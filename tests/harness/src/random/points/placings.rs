//! Valuing calls: placings that points have, with faults, nearly such, and any numbers.

use super::super::{Plan, each_plan, pick, shape};
use super::case::Case;
use super::{Asked, faults};
use crate::Outcome;
use crate::answers::number;
use crate::placings::{LiveValuing, Valuing};
use crate::report::Tally;
use crate::shelf::Shelf;
use evaluator::placing::Placing;
use evaluator::point::LARGEST_DIVISOR;
use evaluator::random::Random;
use evaluator::value::lent_value;
use evaluator::{live, point};

impl Asked {
    fn valuing_checks(self) -> &'static [u8] {
        match self {
            Asked::Exact => &[21, 22, 17, 4, 9, 13, 23],
            Asked::Live => &[21, 22, 17, 15, 4, 9, 13, 23],
        }
    }
}

/// Calls of all plans; the lent net's shares give the expected answers.
pub fn valued(asked: Asked, seed: u64, count: usize, shelf: &Shelf, tally: &mut Tally) -> Outcome {
    each_plan(seed, count, asked.valuing_checks(), |plan, random| {
        let (case, placing) = match plan {
            Plan::Sound => of_point(Case::sound(asked, shape(random), random)),
            Plan::Faulty(checks) => faulty(asked, checks, shelf, random),
            Plan::Free => free(asked, random),
        };
        plan.made(check(&case, placing, shelf, tally)?)
    })
}

/// Makes the call that the case is for, at this placing. The expected number is handed on.
fn check(case: &Case, placing: Placing, shelf: &Shelf, tally: &mut Tally) -> Outcome<u8> {
    let (net, told) = (case.net.slice(shelf, case.net_length), case.net.to_string());
    let valuing = &Valuing { loan: case.loan(&net, &told), placing };
    let exact = lent_value(&valuing.evaluated(), &net);
    let number = match case.flag {
        None => valuing.check(&exact).map(|()| number(&exact))?,
        Some(flag) => {
            let expected = live::value(&valuing.evaluated(), exact, flag != 0);
            LiveValuing { valuing, flag }.check(&expected).map(|()| number(&expected))?
        }
    };
    tally.count(number);
    Ok(number)
}

fn of_point(case: Case) -> (Case, Placing) {
    let placing = case.placing();
    (case, placing)
}

/// A sound call with the faults of these checks.
fn faulty(asked: Asked, checks: &[u8], shelf: &Shelf, random: &mut Random) -> (Case, Placing) {
    let of_point_call: Vec<u8> = checks.iter().copied().filter(|&check| check != 17).collect();
    let (case, mut placing) = of_point(faults::faulty(asked, &of_point_call, shelf, random));
    if checks.contains(&17) {
        break_placing(&mut placing, &case, random);
    }
    (case, placing)
}

/// No point has it: by the axis order, the sum of the weights, a cell, a tie, or a remainder that is the divisor; or
/// it is all zeros.
fn break_placing(placing: &mut Placing, case: &Case, random: &mut Random) {
    let [i, j, _] = pick(random, &[[0, 1, 2], [1, 2, 0], [2, 0, 1]]);
    match random.below(7) {
        0 => placing.order[i] = placing.order[j],
        1 => placing.order[i] = pick(random, &[0, 4, 255]),
        2 => {
            let past = point::largest_divisor(case.net.of.degree()) + 1;
            let sum = pick(random, &[0, past, LARGEST_DIVISOR.max(past), LARGEST_DIVISOR + 1, u32::MAX]);
            placing.weights = pick(random, &[[sum, 0, 0, 0], wrapped(placing.weights)]);
        }
        3 => placing.cell[i] = cell_outside(i, case, random),
        4 => {
            placing.weights = [case.divisor, 0, 0, 0];
            placing.order = pick(random, &[[1, 3, 2], [2, 1, 3], [2, 3, 1], [3, 1, 2], [3, 2, 1]]);
        }
        5 => *placing = Placing { cell: [0; 3], order: [0; 3], weights: [0; 4] },
        // In a block that is just a window the cell before the last one is outside, and 17 refuses that too.
        _ => {
            placing.weights = [0, 0, 0, case.divisor];
            placing.order = [1, 2, 3];
            placing.cell = case.handed.unit.n.map(|n| u32::from(n).wrapping_sub(1));
            placing.cell[i] = placing.cell[i].wrapping_sub(1);
        }
    }
}

/// The same sum in 32 bits, but not in more.
fn wrapped([l0, l1, l2, l3]: [u32; 4]) -> [u32; 4] {
    const HALF: u32 = 1 << 31;
    [l0 + HALF, l1, l2, l3 + HALF]
}

/// Next to those inside, far away, or one that has an inner one's low bits.
fn cell_outside(axis: usize, case: &Case, random: &mut Random) -> u32 {
    let (extent, size) = (case.net.of.extents()[axis] as u32, u32::from(case.handed.unit.n[axis]));
    let inner = case.cube[axis] as u32;
    let bit = random.between(7, 31);
    pick(random, &[extent - 2, 0, size.max(extent), u32::MAX, inner + (1 << bit)])
}

/// A placing that a point has, with a field or two changed by a little or at all; or small numbers throughout.
fn free(asked: Asked, random: &mut Random) -> (Case, Placing) {
    let (case, mut placing) = of_point(Case::sound(asked, shape(random), random));
    if random.below(4) == 0 {
        let mut small = |most: usize| random.between(0, most) as u32;
        placing.cell = case.handed.unit.n.map(|n| small(n.into()));
        placing.order = [0; 3].map(|_: u8| small(4) as u8);
        placing.weights = [0; 4].map(|_: u32| small(3));
    }
    for _ in 0..random.between(1, 2) {
        change_field(&mut placing, random);
    }
    (case, placing)
}

fn change_field(placing: &mut Placing, random: &mut Random) {
    let any = random.below(1 << 32) as u32;
    let changed = |number: u32, random: &mut Random| {
        pick(random, &[number.wrapping_add(1), number.wrapping_sub(1), 0, any, u32::MAX])
    };
    match random.between(0, 9) {
        field @ 0..3 => placing.cell[field] = changed(placing.cell[field], random),
        field @ 3..6 => placing.order[field - 3] = pick(random, &[0, 1, 2, 3, 4, any as u8]),
        field => placing.weights[field - 6] = changed(placing.weights[field - 6], random),
    }
}
