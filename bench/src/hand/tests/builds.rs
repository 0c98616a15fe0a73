use super::{pick, random_unit};
use crate::hand::build::Build;
use crate::hand::{build, build_tuned, result};
use crate::torskavel;
use evaluator::random::Random;
use std::collections::BTreeSet;

/// A net that does not fit is refused with 4.
const PLACES: usize = 41 * 41 * 41;
const CALLS: usize = 1000;

#[test]
fn builds_agree() {
    let mut random = Random::new(1);
    let (mut net, mut work) = (vec![0; PLACES], vec![0; PLACES]);
    let (mut hand_nets, mut hand_work) = ([vec![0; PLACES], vec![0; PLACES]], vec![0; PLACES]);
    let mut numbers = BTreeSet::new();
    for _ in 0..CALLS {
        let unit = random_unit(&mut random);
        let length = pick(&mut random, &[0, 1, 1, 2, 2, 3, 3, 9]);
        let order: Vec<u8> =
            (0..length).map(|_| pick(&mut random, &[1, 1, 2, 2, 3, 3, 4, 4, 0, 5])).collect();
        let room = pick(&mut random, &[27, 174, 175, 2196, 2197, 9261, PLACES]);
        let answer = torskavel::build(unit, &order, &mut net[..room], &mut work);
        numbers.insert(answer.number);
        for (build, hand_net) in [build as Build, build_tuned].into_iter().zip(&mut hand_nets) {
            assert_eq!(build(unit, &order, &mut hand_net[..room], &mut hand_work), result(answer));
            assert!(net == *hand_net, "{order:?}");
        }
    }
    assert_eq!(numbers, BTreeSet::from([0, 1, 2, 4]));
}
