//! The hand-written calls against the library's, refusals included; factory calls and loads against the
//! evaluator's too.

mod builds;
mod factory;
mod inspections;
mod loads;
mod placings;
mod points;

use crate::torskavel::Unit;
use evaluator::random::Random;

fn pick<T: Copy>(random: &mut Random, among: &[T]) -> T {
    among[random.between(0, among.len() - 1)]
}

/// At the ends of its 16 bits, at 0 and near it.
fn random_origin(random: &mut Random) -> [i16; 3] {
    [0; 3].map(|_| pick(random, &[0, 0, 1, -1, 100, -100, 32767, -32768]))
}

fn random_unit(random: &mut Random) -> Unit {
    let (v, n) = ([1, 1, 1, 1, 2, 2, 2, 3, 0], [2, 3, 4, 4, 5, 5, 6, 0, 65]);
    let (v1, v2, v3, v4) = (pick(random, &v), pick(random, &v), pick(random, &v), pick(random, &v));
    let (n1, n2, n3) = (pick(random, &n), pick(random, &n), pick(random, &n));
    let mut flag = || if random.below(20) > 0 { 1 } else { random.below(256) as u8 };
    let (has_net, has_block) = (flag(), flag());
    let [o1, o2, o3] = random_origin(random);
    Unit { has_net, v1, v2, v3, v4, has_block, n1, n2, n3, o1, o2, o3 }
}

/// What is so many steps past the origin of each axis; before it where they are negative.
fn past_origin(unit: &Unit, divisor: u32, mut steps: impl FnMut(u16) -> i32) -> [i32; 3] {
    let (n, o) = ([unit.n1, unit.n2, unit.n3], [unit.o1, unit.o2, unit.o3]);
    [0, 1, 2].map(|b| i32::from(o[b]) * divisor as i32 + steps(n[b]))
}
