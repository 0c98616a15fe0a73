//! Random field files.

use super::{Plan, break_sizes, each_plan, long_enough, origin, pick, shorten, sizes, unit};
use crate::Outcome;
use crate::answers::number;
use crate::calls::Load;
use crate::report::Tally;
use evaluator::field::{self, Block, NEVER_MEASURED};
use evaluator::random::Random;

const CHECKS: [u8; 6] = [5, 6, 7, 8, 16, 9];
const SIZES_LENGTH: usize = 6;
/// Of sizes and origin.
const HEADER_LENGTH: usize = 12;

pub fn run(seed: u64, count: usize, tally: &mut Tally) -> Outcome {
    each_plan(seed, count, &CHECKS, |plan, random| {
        let (file, lengths) = case(plan, random);
        let unit = unit(random);
        let expected = field::load(&unit.unit, &file, lengths);
        plan.made(number(&expected))?;
        Load { unit, file: &file, lengths }.check(&expected)?;
        tally.count(number(&expected));
        Ok(())
    })
}

/// Some entries are gaps, which have no uncertainty, and some corrections nearly that of a gap.
fn block(random: &mut Random) -> Block {
    let mut block = Block::random(sizes([1; 3], random), random).moved_to(origin(random));
    let last = block.corrections.len() - 1;
    for _ in 0..random.between(0, 3) {
        let (gap, measured) = (random.between(0, last), random.between(0, last));
        block.corrections[measured] = pick(random, &[-32767, -32640, 0, 128]);
        (block.corrections[gap], block.uncertainties[gap]) = (NEVER_MEASURED, 0);
    }
    block
}

/// A file, and the lengths of corrections and uncertainties. The last fault comes first: cutting a file hides others.
fn case(plan: Plan, random: &mut Random) -> (Vec<u8>, [usize; 2]) {
    let block = block(random);
    let entries = block.sizes.entries();
    let mut file = block.file();
    let mut lengths = [0; 2].map(|_: usize| long_enough(entries, random));
    match plan {
        Plan::Sound => {}
        Plan::Faulty(faults) => {
            for &fault in faults.iter().rev() {
                match fault {
                    9 => shorten(&mut lengths, entries, random),
                    fault => damage(&mut file, fault, entries, random),
                }
            }
        }
        Plan::Free => return free(random),
    }
    (file, lengths)
}

fn damage(file: &mut Vec<u8>, fault: u8, entries: usize, random: &mut Random) {
    match fault {
        16 => {
            for _ in 0..random.between(1, 3) {
                let entry = random.between(0, entries - 1);
                let any = random.between(1, 32767) as u16;
                put(file, entry, NEVER_MEASURED as u16);
                put(file, entries + entry, pick(random, &[1, 256, 32767, any]));
            }
        }
        8 => {
            for _ in 0..random.between(1, 3) {
                let entry = random.between(0, entries - 1);
                file[HEADER_LENGTH + 2 * (entries + entry) + 1] |= 0x80;
            }
        }
        7 if random.below(4) == 0 && entries > 1 => *file = old(file),
        7 if random.below(2) == 0 => file.truncate(random.between(HEADER_LENGTH, file.len() - 1)),
        7 => file.resize(file.len() + random.between(1, 9), 0),
        6 => {
            let mut n = [0, 2, 4].map(|at| u16::from_le_bytes([file[at], file[at + 1]]));
            break_sizes(&mut n, random);
            file.splice(..SIZES_LENGTH, n.into_iter().flat_map(u16::to_le_bytes));
        }
        _ => file.truncate(random.between(0, HEADER_LENGTH - 1)),
    }
}

/// A file with sizes and origin as it was before 0.7.0.
fn old(file: &[u8]) -> Vec<u8> {
    field::without_origin(file).expect("it has an origin")
}

/// Writes one of the numbers after the origin: the corrections and then the uncertainties.
fn put(file: &mut [u8], number: usize, word: u16) {
    file[HEADER_LENGTH + 2 * number..][..2].copy_from_slice(&word.to_le_bytes());
}

/// A small file with entries of each kind, uncertainties of gaps and too large ones among them; then with other bytes
/// here and there, without its origin, or of another length.
fn free(random: &mut Random) -> (Vec<u8>, [usize; 2]) {
    let n = pick(random, &[[1, 1, 1], [2, 1, 1], [1, 2, 3], [2, 2, 2]]);
    let sizes = evaluator::unit::Sizes::new(n).expect("within the limits");
    let Block { mut corrections, mut uncertainties, .. } = Block::random(sizes, random);
    for (correction, uncertainty) in corrections.iter_mut().zip(&mut uncertainties) {
        if random.below(4) == 0 {
            (*correction, *uncertainty) = (NEVER_MEASURED, pick(random, &[0, 0, 1, *uncertainty]));
        }
        if random.below(12) == 0 {
            *uncertainty += 32768;
        }
    }
    let mut file = Block { sizes, origin: origin(random), corrections, uncertainties }.file();
    for _ in 0..random.between(0, 4) {
        let at = random.between(0, file.len() - 1);
        file[at] = random.below(256) as u8;
    }
    match random.below(8) {
        0 => file = old(&file),
        1 | 2 => file.resize(random.between(0, file.len() + 4), 1),
        _ => {}
    }
    let lengths = [0; 2].map(|_: usize| random.between(sizes.entries() - 1, sizes.entries() + 3));
    (file, lengths)
}
