use super::{pick, random_origin, random_unit};
use crate::hand::{Load, Refusal, load, load_tuned};
use crate::loads::by_library;
use crate::torskavel::{NEVER_MEASURED, Unit};
use evaluator::random::Random;
use evaluator::{field, unit};
use std::collections::BTreeSet;

const CALLS: usize = 20_000;
const GAP: u16 = NEVER_MEASURED as u16;

/// A field file, or nearly one.
fn random_file(random: &mut Random) -> Vec<u8> {
    let n = [0; 3].map(|_| pick(random, &[1, 2, 3, 3, 4, 4, 5, 6, 0, 64, 65, 65535]));
    let entries = n.iter().map(|&n| u64::from(n)).product::<u64>().min(4096) as usize;
    let mut words = n.to_vec();
    words.extend(random_origin(random).map(|o| o as u16));
    words.extend((0..entries).map(|_| random.below(65536) as u16));
    words.extend((0..entries).map(|_| random.below(32768) as u16));
    if entries > 0 {
        change_entries(&mut words[6..], entries, random);
    }
    let mut file: Vec<u8> = words.into_iter().flat_map(u16::to_le_bytes).collect();
    // Now and then without its origin, or of another length.
    if random.below(8) == 0 {
        file.drain(6..12);
    }
    let length = pick(random, &[file.len(), file.len(), file.len(), file.len() - 1, file.len() + 1, 5, 11]);
    file.resize(length, 0);
    file
}

/// Up to three of the corrections and uncertainties: one that is too large, gaps with and without one, and what
/// is nearly a gap.
fn change_entries(words: &mut [u16], entries: usize, random: &mut Random) {
    for _ in 0..random.below(4) {
        let correction = random.between(0, entries - 1);
        let uncertainty = entries + correction;
        match random.below(8) {
            0 => words[uncertainty] = 32768 + random.below(2) as u16,
            1 => (words[correction], words[uncertainty]) = (GAP, pick(random, &[1, 256, 32767])),
            2..5 => (words[correction], words[uncertainty]) = (GAP, 0),
            _ => words[correction] = pick(random, &[GAP + 1, GAP + 128, 128, 0, 32767]),
        }
    }
}

type Slices = (Vec<i16>, Vec<u16>);

/// What the evaluator says of a load: its answer, and the slices afterwards.
fn expected(unit: Unit, file: &[u8], mut slices: Slices) -> (Result<Unit, Refusal>, Slices) {
    let answer = match field::load(&unit::Unit::EMPTY, file, [slices.0.len(), slices.1.len()]) {
        Ok((loaded, block)) => {
            slices.0[..block.corrections.len()].copy_from_slice(&block.corrections);
            slices.1[..block.uncertainties.len()].copy_from_slice(&block.uncertainties);
            let ([n1, n2, n3], [o1, o2, o3]) = (loaded.n, loaded.o);
            Ok(Unit { has_block: 1, n1, n2, n3, o1, o2, o3, ..unit })
        }
        Err(refusal) => Err(Refusal { number: refusal.number.into(), place: refusal.place }),
    };
    (answer, slices)
}

#[test]
fn loads_agree() {
    let mut random = Random::new(4);
    let mut numbers = BTreeSet::new();
    for _ in 0..CALLS {
        let (unit, file) = (random_unit(&mut random), random_file(&mut random));
        let slices =
            (vec![7; pick(&mut random, &[4096, 4096, 64, 63])], vec![7; pick(&mut random, &[4096, 60])]);
        let expected = expected(unit, &file, slices.clone());
        numbers.insert(expected.0.map_or_else(|refusal| refusal.number, |_| 0));
        for load in [by_library as Load, load, load_tuned] {
            let mut lent = slices.clone();
            let answer = load(unit, &file, &mut lent.0, &mut lent.1);
            assert!((answer, lent) == expected, "{:?} {answer:?} {:?}", &file[..5], expected.0);
        }
    }
    assert_eq!(numbers, BTreeSet::from([0, 5, 6, 7, 8, 9, 16]));
}
