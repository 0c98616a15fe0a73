//! Random factory calls, alone, beside builds, and before inspections.

use super::{Plan, any_bytes, each_case, each_plan, long_enough, pick, too_short, unit};
use crate::Outcome;
use crate::answers::{Handed, number};
use crate::calls::{Build, Inspection, expect};
use crate::factory::Factory;
use crate::report::Tally;
use crate::shelf::{LentNet, Shelf};
use evaluator::calls::{self, factory_shape};
use evaluator::net::{Multiplicities, Net};
use evaluator::random::Random;
use evaluator::unit::Refusal;

const CHECKS: [u8; 1] = [4];

/// Other nets that slices held are up to this degree: those above are many times as long as the factory's.
const SMALL: usize = 5;

/// Calls of all plans. `net` is the evaluator's.
pub fn run(seed: u64, count: usize, net: &Net, shelf: &Shelf, tally: &mut Tally) -> Outcome {
    each_plan(seed, count, &CHECKS, |plan, random| {
        let (unit, length) = (any_unit(random), length(plan, random));
        let (held, told) = contents(length, shelf, random);
        let mut after = held.clone();
        let expected = calls::factory(&unit.unit, &mut after, |_| net);
        plan.made(number(&expected))?;
        Factory { unit, net: &held, told }.check(&expected, &after)?;
        tally.count(number(&expected));
        Ok(())
    })
}

/// From one record a factory call and a build by 1, 3, 2 answer alike and leave one net, whatever slices held.
pub fn beside_builds(seed: u64, count: usize, shelf: &Shelf, tally: &mut Tally) -> Outcome {
    let places = factory_shape().places();
    each_case(seed, count, |_, random| {
        let unit = any_unit(random);
        let lengths = [0; 2].map(|_: usize| long_enough(places, random));
        let expected = calls::build(&unit.unit, &[1, 3, 2], lengths);
        let built = Build { unit, order: &[1, 3, 2], lengths }.written(&expected, places)?;
        let copied = copied(unit, long_enough(places, random), shelf, random)?;
        for (place, pair) in built.iter().zip(&copied).enumerate() {
            expect((place, pair.0), (place, pair.1))?;
        }
        tally.count(number(&expected));
        Ok(())
    })
}

/// The copied net passes; with each of its numbers changed, in turn, it is refused by 14 at that place.
pub fn inspected(seed: u64, shelf: &Shelf, tally: &mut Tally) -> Outcome {
    let v = factory_shape();
    let random = &mut Random::new(seed);
    let mut net = copied(any_unit(random), v.places(), shelf, random)?;
    let mut inspect = |net: &[u32], changed: Option<usize>| -> Outcome {
        let unit = any_unit(random);
        let expected = changed.map_or(Ok(unit.unit.with_net(v)), |place| Err(Refusal::at(14, place)));
        let told = changed.map_or("a copy".to_string(), |place| format!("a copy [{place}]={}", net[place]));
        Inspection { unit, v: v.counts().map(|v| v as u8), net, told, lengths: [v.places(); 2] }.check(&expected)?;
        tally.count(number(&expected));
        Ok(())
    };
    inspect(&net, None)?;
    for place in 0..v.places() {
        let number = net[place];
        net[place] = number ^ 1 << (place % 32);
        inspect(&net, Some(place))?;
        net[place] = number;
    }
    Ok(())
}

/// The slice after a call that is not refused, from one of this length with any contents.
pub fn copied(unit: Handed, length: usize, shelf: &Shelf, random: &mut Random) -> Outcome<Vec<u32>> {
    let (held, told) = contents(length, shelf, random);
    let answer = unit.net_answer(&Ok(unit.unit.with_net(factory_shape())));
    Factory { unit, net: &held, told }.left(answer)
}

/// Flags and values about the limits, now and then with the factory's multiplicities already, or any bytes.
pub fn any_unit(random: &mut Random) -> Handed {
    let mut handed = unit(random);
    match random.below(3) {
        0 => handed,
        1 => {
            handed.unit.v = factory_shape().counts().map(|v| v as u8);
            handed
        }
        _ => any_bytes(random),
    }
}

fn length(plan: Plan, random: &mut Random) -> usize {
    let places = factory_shape().places();
    match plan {
        Plan::Sound => long_enough(places, random),
        Plan::Faulty(_) => too_short(places, random),
        Plan::Free => {
            let (around, any) = (random.between(places - 5, places + 5), random.between(0, 4 * places));
            pick(random, &[around, around, any, 1])
        }
    }
}

/// A slice to copy into, and what it is for a reader: any numbers, one number throughout, the net of other
/// multiplicities, or the factory's net with some other numbers.
fn contents(length: usize, shelf: &Shelf, random: &mut Random) -> (Vec<u32>, String) {
    let mut net = LentNet::defined(factory_shape());
    match random.below(4) {
        0 => {
            let numbers = (0..length).map(|_| random.below(1 << 32) as u32).collect();
            return (numbers, "any numbers".to_string());
        }
        1 => {
            let any = random.below(1 << 32) as u32;
            let number = pick(random, &[0, 1, u32::MAX, any]);
            return (vec![number; length], format!("{number} throughout"));
        }
        2 => {
            let degree = random.between(1, SMALL);
            net.of = pick(random, &Multiplicities::of_degree(degree));
        }
        _ => {
            for _ in 0..random.between(0, 3) {
                net.changes.push((random.between(0, net.of.places() - 1), random.below(1 << 32) as u32));
            }
        }
    }
    (net.slice(shelf, length), net.to_string())
}
