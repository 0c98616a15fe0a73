//! Random calls from fixed seeds, and what the kinds of calls share.

pub mod builds;
pub mod factory;
pub mod inspections;
pub mod loads;
pub mod points;

use crate::Outcome;
use crate::answers::Handed;
use evaluator::net::Multiplicities;
use evaluator::random::Random;
use evaluator::unit::{Origin, Sizes, Unit};

/// How a case is made.
#[derive(Clone, Copy)]
pub enum Plan<'a> {
    /// A call that no check refuses.
    Sound,
    /// A sound call with the faults of these checks, the earlier check first.
    Faulty(&'a [u8]),
    /// Any numbers.
    Free,
}

impl Plan<'_> {
    /// The case is as planned: the call is refused by the first of the faults.
    pub fn made(&self, number: u8) -> Outcome {
        match self {
            Plan::Sound => planned(0, number),
            Plan::Faulty(checks) => planned(checks[0], number),
            Plan::Free => Ok(()),
        }
    }
}

/// The evaluator answers the number that a case was made for.
pub fn planned(planned: u8, number: u8) -> Outcome {
    if number == planned { Ok(()) } else { Err(format!("planned for {planned}, the evaluator says {number}")) }
}

/// Each check alone and each pair of checks.
fn fault_sets(checks: &[u8]) -> Vec<Vec<u8>> {
    let pairs = checks.iter().enumerate().flat_map(|(i, &a)| checks[i + 1..].iter().map(move |&b| vec![a, b]));
    checks.iter().map(|&check| vec![check]).chain(pairs).collect()
}

/// Runs the cases of a seed, each with its number and from a seed of its own.
pub fn each_case(seed: u64, count: usize, mut run: impl FnMut(usize, &mut Random) -> Outcome) -> Outcome {
    for number in 0..count {
        let random = &mut Random::new((seed << 32) + number as u64);
        run(number, random).map_err(|failure| format!("case {number}: {failure}"))?;
    }
    Ok(())
}

/// Runs cases of all plans: in turn a sound one, one with the next faults, and a free one.
pub fn each_plan(seed: u64, count: usize, checks: &[u8], mut run: impl FnMut(Plan, &mut Random) -> Outcome) -> Outcome {
    let sets = fault_sets(checks);
    each_case(seed, count, |number, random| match number % 3 {
        0 => run(Plan::Sound, random),
        1 => run(Plan::Faulty(&sets[number / 3 % sets.len()]), random),
        _ => run(Plan::Free, random),
    })
}

pub fn pick<T: Copy>(random: &mut Random, choices: &[T]) -> T {
    choices[random.between(0, choices.len() - 1)]
}

/// Multiplicities of any degree, each degree as often.
pub fn shape(random: &mut Random) -> Multiplicities {
    let degree = random.between(1, 9);
    pick(random, &Multiplicities::of_degree(degree))
}

/// Sizes from these least ones on: just these, a few more, or as many as a block can have.
pub fn sizes(least: [usize; 3], random: &mut Random) -> Sizes {
    let mut n = least;
    let more = pick(random, &[0, 2, 64]);
    let first = random.between(0, 2);
    for axis in [first, (first + 1) % 3, (first + 2) % 3] {
        let others = n.iter().product::<usize>() / n[axis];
        n[axis] = random.between(n[axis], (n[axis] + more).min(4096 / others).min(64));
    }
    Sizes::new(n).expect("within the limits")
}

/// A length that holds so many.
pub fn long_enough(needed: usize, random: &mut Random) -> usize {
    needed + pick(random, &[0, 0, 1, 2, 100])
}

/// A length that does not.
pub fn too_short(needed: usize, random: &mut Random) -> usize {
    let any = random.between(0, needed - 1);
    pick(random, &[needed - 1, 0, any])
}

/// One of the lengths, and now and then each of them, too short.
pub fn shorten<const N: usize>(lengths: &mut [usize; N], needed: usize, random: &mut Random) {
    let one = random.between(0, N - 1);
    let all = random.below(4) == 0;
    for (number, length) in lengths.iter_mut().enumerate() {
        if all || number == one {
            *length = too_short(needed, random);
        }
    }
}

pub fn break_multiplicities(v: &mut [u8; 4], random: &mut Random) {
    let large = random.between(10, 255) as u8;
    v[random.between(0, 3)] = pick(random, &[0, large, 255]);
}

pub fn break_sizes(n: &mut [u16; 3], random: &mut Random) {
    let axis = random.between(0, 2);
    if random.below(4) == 0 {
        *n = [64; 3];
        n[axis] = random.between(2, 64) as u16;
    } else {
        let large = random.between(65, 65535) as u16;
        n[axis] = pick(random, &[0, 65, large, 65535]);
    }
}

/// On each axis 0, next to it, at either end of its 16 bits, near 0, or any.
pub fn origin(random: &mut Random) -> Origin {
    [0; 3].map(|_: i16| {
        let (near, any) = (random.between(0, 200) as i16 - 100, random.below(1 << 16) as u16 as i16);
        pick(random, &[0, 0, 1, -1, i16::MIN, i16::MAX, near, any])
    })
}

/// Bytes for flags that are not set.
pub fn absent(random: &mut Random) -> [u8; 2] {
    [0; 2].map(|_: u8| pick(random, &[0, 2, 88, 255]))
}

/// Flags and values that may or may not be within the limits.
pub fn unit(random: &mut Random) -> Handed {
    let mut unit = Unit::EMPTY.with_net(shape(random)).with_block(sizes([1; 3], random), origin(random));
    if random.below(3) == 0 {
        break_multiplicities(&mut unit.v, random);
    }
    if random.below(3) == 0 {
        break_sizes(&mut unit.n, random);
    }
    (unit.has_net, unit.has_block) = (random.below(3) > 0, random.below(3) > 0);
    Handed { unit, absent: absent(random) }
}

/// Any bytes, as after a bad read of a flash memory; flags that are set are not rare.
pub fn any_bytes(random: &mut Random) -> Handed {
    let flags = [0; 2].map(|_: u8| {
        let any = random.below(256) as u8;
        pick(random, &[1, any])
    });
    let v = [0; 4].map(|_: u8| random.below(256) as u8);
    let [n, o] = [0; 2].map(|_: u16| [0; 3].map(|_: u16| random.below(65536) as u16));
    Handed::of(flags, v, n, o.map(|o| o as i16))
}
