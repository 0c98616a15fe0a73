use super::{past_origin, pick, random_origin, random_unit};
use crate::hand::{
    Call, Fraction, LiveAnswer, Refusal, SHAPES, answer, defined_order, live_answer, live_tuned, tuned,
};
use crate::torskavel::{self, Unit};
use evaluator::random::Random;
use std::collections::BTreeSet;

const CALLS: usize = 20_000;
const PLACES: usize = 41 * 41 * 41;

/// The steps past the origin, or now and then those of the far face of a block of this size, one more, or one
/// before the origin.
fn or_far(steps: usize, size: u16, divisor: u32, random: &mut Random) -> i32 {
    let far = i32::from(size) * divisor as i32;
    match random.below(16) {
        0..4 => far,
        4 | 5 => far + 1,
        6 => -1,
        _ => steps as i32,
    }
}

/// The numbers that the library's exact and live call answer, where all agree.
fn agreed(call: &Call, with_uncertainty: bool) -> [u32; 2] {
    [agreed_exact(call), agreed_live(call, with_uncertainty)]
}

fn agreed_live(call: &Call, on: bool) -> u32 {
    let &Call { unit, net, corrections, uncertainties, coordinates, divisor } = call;
    let library = torskavel::live_answer(unit, net, corrections, uncertainties, coordinates, divisor, on);
    let expected = match library.number {
        0 => Ok([library.numerator.to_bits(), library.uncertainty.to_bits()]),
        number => Err(Refusal { number, place: library.place }),
    };
    let straight = ("straight", live_answer as LiveAnswer<Call>);
    for (shape, live) in [straight].into_iter().chain(SHAPES.into_iter().zip(live_tuned())) {
        let bits = live(call, on).map(|floats| floats.bits());
        assert_eq!(bits, expected, "{shape} {unit:?} {coordinates:?} {divisor} {on}");
    }
    library.number
}

fn agreed_exact(call: &Call) -> u32 {
    let &Call { unit, net, corrections, uncertainties, coordinates, divisor } = call;
    let library = torskavel::answer(unit, net, corrections, uncertainties, coordinates, divisor);
    let (numerator, uncertainty) = (library.numerator, library.uncertainty);
    let expected = match library.number {
        0 => Ok(Fraction { numerator, uncertainty, denominator: library.denominator }),
        number => Err(Refusal { number, place: library.place }),
    };
    assert_eq!(answer(call), expected, "{unit:?} {coordinates:?} {divisor}");
    for (shape, tuned) in SHAPES.into_iter().zip(tuned()) {
        assert_eq!(tuned(call), expected, "{shape} {unit:?} {coordinates:?} {divisor}");
    }
    library.number
}

fn insert(numbers: &mut [BTreeSet<u32>; 2], agreed: [u32; 2]) {
    for (numbers, number) in numbers.iter_mut().zip(agreed) {
        numbers.insert(number);
    }
}

/// Shares that add up to m! nearly everywhere, so that points are answered, and are refused with 23.
fn nearly_defined(unit: Unit, random: &mut Random, net: &mut [u32], work: &mut [i32]) {
    torskavel::build(unit, &defined_order([unit.v1, unit.v2, unit.v3, unit.v4]), net, work);
    if random.below(3) == 0 {
        net[random.between(0, 2000)] = 1;
    }
}

#[test]
fn points_agree() {
    let mut random = Random::new(2);
    let (mut net, mut work) = (vec![0; PLACES], vec![0; PLACES]);
    let mut numbers = [BTreeSet::new(), BTreeSet::new()];
    for _ in 0..CALLS {
        let unit = random_unit(&mut random);
        nearly_defined(unit, &mut random, &mut net, &mut work);
        let mut corrections: Vec<i16> =
            (0..216).map(|_| (random.below(65535) as i32 - 32767) as i16).collect();
        let uncertainties: Vec<u16> = (0..216).map(|_| random.below(65536) as u16).collect();
        if random.below(4) == 0 {
            corrections[random.between(0, 215)] = i16::MIN;
        }
        let divisor = pick(&mut random, &[1, 2, 3, 7, 64, 64, 297, 0, 4096, 4097]);
        let coordinates = past_origin(&unit, divisor, |n| {
            let any = random.between(0, 6 * divisor as usize);
            or_far(any, n, divisor, &mut random)
        });
        let net = &net[..pick(&mut random, &[PLACES, PLACES, PLACES, 2196, 26])];
        let corrections = &corrections[..pick(&mut random, &[215, 216, 216, 216, 216, 64])];
        let uncertainties = &uncertainties[..];
        let call = Call { unit, net, corrections, uncertainties, coordinates, divisor };
        insert(&mut numbers, agreed(&call, random.below(2) == 0));
    }
    let exact = BTreeSet::from([0, 4, 9, 10, 11, 12, 13, 21, 22, 23]);
    let live = exact.iter().copied().chain([15]).collect();
    assert_eq!(numbers, [exact, live]);
}

/// Multiplicities of each degree from 4, and the largest divisors of each, of the exact and of the live call.
const LENT: [([u8; 4], u32, u32); 7] = [
    ([2, 2, 2, 1], 1850, 275),
    ([2, 2, 2, 2], 297, 64),
    ([3, 2, 2, 2], 85, 23),
    ([1, 4, 3, 2], 34, 11),
    ([3, 3, 3, 2], 17, 6),
    ([3, 3, 3, 3], 9, 4),
    ([1, 1, 1, 9], 9, 4),
];
/// On each axis of the block.
const SIZE: usize = 11;
const ENTRIES: usize = SIZE * SIZE * SIZE;

/// Measured entries: any, or all the largest, or all the smallest.
fn random_block(random: &mut Random) -> (Vec<i16>, Vec<u16>) {
    match random.below(3) {
        0 => (vec![32767; ENTRIES], vec![65535; ENTRIES]),
        1 => (vec![-32767; ENTRIES], vec![65535; ENTRIES]),
        _ => (0..ENTRIES)
            .map(|_| ((random.below(65535) as i32 - 32767) as i16, random.below(65536) as u16))
            .unzip(),
    }
}

/// Moves some of a share to the next entry of the row, so that the shares still add up, or, rarely, changes
/// one by a power of 2, which a sum of too few bits would lose.
fn disturb(net: &mut [u32], degree: usize, random: &mut Random) {
    let from = random.between(0, net.len() - 1 - degree);
    if random.below(50) == 0 {
        net[from] = net[from].wrapping_add(1 << random.below(32));
    } else {
        let moved = random.below(u64::from(net[from]) + 1) as u32;
        net[from] -= moved;
        net[from + degree] = net[from + degree].wrapping_add(moved);
    }
}

#[test]
fn lent_nets_of_any_numbers_agree() {
    let mut random = Random::new(5);
    for (v, largest, live_largest) in LENT {
        let empty = torskavel::empty_unit();
        let [o1, o2, o3] = random_origin(&mut random);
        let (n, has_block) = (SIZE as u16, 1);
        let loaded = Unit { has_block, n1: n, n2: n, n3: n, o1, o2, o3, ..empty };
        let degree = v.iter().map(|&v| usize::from(v)).sum::<usize>() - 3;
        let (mut net, mut work) = (vec![0; torskavel::places(v)], vec![0; torskavel::places(v)]);
        let mut numbers = [BTreeSet::new(), BTreeSet::new()];
        for _ in 0..40 {
            let unit = torskavel::build(loaded, &defined_order(v), &mut net, &mut work).unit;
            let (corrections, uncertainties) = random_block(&mut random);
            for _ in 0..20 {
                disturb(&mut net, degree, &mut random);
                let divisor = pick(&mut random, &[1, live_largest, live_largest + 1, largest - 1, largest]);
                let coordinates = past_origin(&unit, divisor, |size| {
                    let any = random.between(8 * divisor as usize, SIZE * divisor as usize - 1);
                    or_far(any, size, divisor, &mut random)
                });
                let call = Call {
                    unit,
                    net: &net,
                    corrections: &corrections,
                    uncertainties: &uncertainties,
                    coordinates,
                    divisor,
                };
                insert(&mut numbers, agreed(&call, random.below(2) == 0));
            }
        }
        let [exact, live] = &numbers;
        assert!([0, 23].iter().all(|number| exact.contains(number)), "{v:?} {numbers:?}");
        assert!([0, 15, 23].iter().all(|number| live.contains(number)), "{v:?} {numbers:?}");
    }
}
