//! Random inspections of defined and of damaged nets.

use super::{Plan, break_multiplicities, each_case, each_plan, long_enough, pick, planned, shape, shorten, unit};
use crate::Outcome;
use crate::answers::{Handed, number};
use crate::calls::Inspection;
use crate::report::Tally;
use crate::shelf::{LentNet, Shelf};
use evaluator::calls;
use evaluator::net::Multiplicities;
use evaluator::random::Random;

const CHECKS: [u8; 3] = [3, 4, 14];

struct Case {
    v: [u8; 4],
    net: LentNet,
    /// Of net, defined and work.
    lengths: [usize; 3],
}

impl Case {
    /// Makes the call; hands on the number that it must answer.
    fn check(&self, unit: Handed, shelf: &Shelf, tally: &mut Tally) -> Outcome<u8> {
        let Case { v, net: lent, lengths: [length, lengths @ ..] } = self;
        let (v, lengths, net) = (*v, *lengths, lent.slice(shelf, *length));
        let expected = calls::inspect(&unit.unit, v, &net, lengths, |v| shelf.net(v));
        Inspection { unit, v, net: &net, told: lent.to_string(), lengths }.check(&expected)?;
        tally.count(number(&expected));
        Ok(number(&expected))
    }
}

/// Inspections of all plans.
pub fn run(seed: u64, count: usize, shelf: &Shelf, tally: &mut Tally) -> Outcome {
    each_plan(seed, count, &CHECKS, |plan, random| {
        let case = case(plan, shelf, random);
        plan.made(case.check(unit(random), shelf, tally)?)
    })
}

/// Each net as it is, with another number at its last place, and with one somewhere.
pub fn all_nets(seed: u64, shelf: &Shelf, tally: &mut Tally) -> Outcome {
    let all: Vec<Multiplicities> = (1..=9).flat_map(Multiplicities::of_degree).collect();
    each_case(seed, all.len(), |number, random| {
        let v = all[number];
        let last = v.places() - 1;
        let changed = [last, random.between(0, last)].map(|index| (index, shelf.net(v).numbers[index] + 1));
        for (changes, number) in [(vec![], 0), (vec![changed[0]], 14), (vec![changed[1]], 14)] {
            let net = LentNet { of: v, changes };
            let case = Case { v: v.counts().map(|v| v as u8), net, lengths: [v.places(); 3] };
            planned(number, case.check(unit(random), shelf, tally)?)?;
        }
        Ok(())
    })
}

fn case(plan: Plan, shelf: &Shelf, random: &mut Random) -> Case {
    let faults = match plan {
        Plan::Sound => &[][..],
        Plan::Faulty(faults) => faults,
        Plan::Free => return free(random),
    };
    let shape = shape(random);
    let places = shape.places();
    let mut net = LentNet::defined(shape);
    let mut v = shape.counts().map(|v| v as u8);
    let mut lengths = [0; 3].map(|_: usize| long_enough(places, random));
    for fault in faults {
        match fault {
            3 => break_multiplicities(&mut v, random),
            4 => shorten(&mut lengths, places, random),
            _ => damage(&mut net, shelf, random),
        }
    }
    Case { v, net, lengths }
}

/// One to three numbers are others: any, or off by one; now and then the last one alone.
fn damage(net: &mut LentNet, shelf: &Shelf, random: &mut Random) {
    let numbers = &shelf.net(net.of).numbers;
    let last = numbers.len() - 1;
    for _ in 0..random.between(1, 3) {
        let any = random.between(0, last);
        let index = pick(random, &[any, any, any, last]);
        let by = random.between(1, u32::MAX as usize) as u32;
        let by = pick(random, &[by, 1, u32::MAX]);
        net.changes.push((index, numbers[index].wrapping_add(by)));
    }
}

/// Any numbers for any multiplicities.
fn free(random: &mut Random) -> Case {
    let greatest = pick(random, &[2, 2, 3, 255]);
    let v = [0; 4].map(|_: u8| random.between(usize::from(greatest == 2), greatest) as u8);
    let of = Multiplicities::new(v.map(usize::from)).filter(|v| v.places() < 3000);
    let mut net = LentNet::defined(of.unwrap_or(Multiplicities::new([1, 2, 1, 1]).expect("a net")));
    for _ in 0..random.between(0, 2) {
        net.changes.push((random.between(0, net.of.places() - 1), random.between(0, 3) as u32));
    }
    let needed = net.of.places();
    let around = |random: &mut Random| random.between(needed - 3, needed + 30);
    Case { v, lengths: [around(random), around(random), around(random)], net }
}
