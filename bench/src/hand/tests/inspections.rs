use super::{pick, random_unit};
use crate::hand::{defined_order, inspect, inspect_tuned, result};
use crate::torskavel;
use evaluator::random::Random;
use std::collections::BTreeSet;

const PLACES: usize = 21 * 21 * 21;
const CALLS: usize = 2000;

/// A slice of a length that some nets fit in.
fn lent<'a>(random: &mut Random, slice: &'a mut [u32]) -> &'a mut [u32] {
    &mut slice[..pick(random, &[PLACES, PLACES, PLACES, PLACES, 2197, 2196, 175, 27, 26])]
}

#[test]
fn inspections_agree() {
    let mut random = Random::new(3);
    let (mut net, mut defined, mut work) = (vec![0; PLACES], vec![0; PLACES], vec![0; PLACES]);
    let mut library_work = vec![0; PLACES];
    let mut numbers = BTreeSet::new();
    for _ in 0..CALLS {
        let unit = random_unit(&mut random);
        let v = [0; 4].map(|_| pick(&mut random, &[1, 1, 1, 2, 2, 2, 2, 0, 255]));
        torskavel::build(unit, &defined_order(v.map(|v| v.min(3))), &mut net, &mut library_work);
        // Now and then two places differ, also past the box.
        for _ in 0..random.below(2) * 2 {
            net[random.between(0, PLACES - 1)] ^= 1 << random.below(32);
        }
        let net = &*lent(&mut random, &mut net);
        let defined = lent(&mut random, &mut defined);
        let room = lent(&mut random, &mut work).len();
        let library = result(torskavel::inspect(unit, v, net, defined, &mut library_work[..room]));
        numbers.insert(library.map_or_else(|refusal| refusal.number, |_| 0));
        assert_eq!(inspect(unit, v, net, defined, &mut work[..room]), library, "{v:?}");
        assert_eq!(inspect_tuned(unit, v, net, defined, &mut work[..room]), library, "{v:?}");
    }
    assert_eq!(numbers, BTreeSet::from([0, 3, 4, 14]));
}
