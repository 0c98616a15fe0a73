//! Random builds.

use super::{Plan, each_plan, long_enough, pick, shorten, unit};
use crate::Outcome;
use crate::answers::number;
use crate::calls::Build;
use crate::report::Tally;
use crate::shelf::Shelf;
use evaluator::calls;
use evaluator::random::Random;

const CHECKS: [u8; 3] = [1, 2, 4];

pub fn run(seed: u64, count: usize, shelf: &Shelf, tally: &mut Tally) -> Outcome {
    each_plan(seed, count, &CHECKS, |plan, random| {
        let (order, lengths) = case(plan, random);
        let unit = unit(random);
        let expected = calls::build(&unit.unit, &order, lengths);
        plan.made(number(&expected))?;
        let net = expected.ok().and_then(|unit| unit.net()).map_or(&[][..], |v| &shelf.net(v).numbers);
        Build { unit, order: &order, lengths }.check(&expected, net)?;
        tally.count(number(&expected));
        Ok(())
    })
}

fn directions(length: usize, random: &mut Random) -> Vec<u8> {
    (0..length).map(|_| random.between(1, 4) as u8).collect()
}

fn no_direction(random: &mut Random) -> u8 {
    let large = random.between(5, 255) as u8;
    pick(random, &[0, 5, b'1', 255, large])
}

/// An order, and the lengths of net and work.
fn case(plan: Plan, random: &mut Random) -> (Vec<u8>, [usize; 2]) {
    let faults = match plan {
        Plan::Sound => &[][..],
        Plan::Faulty(faults) => faults,
        Plan::Free => return free(random),
    };
    let length = random.between(0, calls::LONGEST_ORDER);
    let mut order = directions(length, random);
    let places = calls::multiplicities(&order).expect("directions").places();
    let mut lengths = [0; 2].map(|_: usize| long_enough(places, random));
    for fault in faults {
        match fault {
            1 => order = directions(random.between(calls::LONGEST_ORDER + 1, 20), random),
            2 if order.is_empty() => order.push(no_direction(random)),
            2 => {
                let position = random.between(0, order.len() - 1);
                order[position] = no_direction(random);
            }
            _ => shorten(&mut lengths, places, random),
        }
    }
    (order, lengths)
}

fn free(random: &mut Random) -> (Vec<u8>, [usize; 2]) {
    let length = random.between(0, 12);
    let greatest = pick(random, &[4, 4, 5, 255]);
    let order = (0..length).map(|_| random.between(usize::from(greatest == 4), greatest) as u8).collect();
    let longest = pick(random, &[60, 3000, 100_000]);
    (order, [random.between(0, longest), random.between(0, longest)])
}
