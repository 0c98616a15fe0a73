use super::{pick, random_unit};
use crate::factory::by_library;
use crate::hand::{Factory, Refusal, factory, factory_tuned};
use crate::torskavel::Unit;
use evaluator::calls::factory_shape;
use evaluator::net::Net;
use evaluator::random::Random;
use std::collections::BTreeSet;

const CALLS: usize = 2000;

#[test]
fn factory_calls_agree() {
    let mut random = Random::new(6);
    let net = Net::of(factory_shape()).numbers;
    let mut numbers = BTreeSet::new();
    for _ in 0..CALLS {
        let unit = random_unit(&mut random);
        let any = random.between(0, 3000);
        let length = pick(&mut random, &[0, 1, 2196, 2197, 2197, 2198, 2300, any]);
        let slice: Vec<u32> = (0..length).map(|_| random.below(1 << 32) as u32).collect();
        let mut after = slice.clone();
        let expected = match after.get_mut(..net.len()) {
            Some(places) => {
                places.copy_from_slice(&net);
                Ok(Unit { has_net: 1, v1: 2, v2: 2, v3: 2, v4: 1, ..unit })
            }
            None => Err(Refusal { number: 4, place: 0 }),
        };
        numbers.insert(expected.map_or_else(|refusal| refusal.number, |_| 0));
        for call in [by_library as Factory, factory, factory_tuned] {
            let mut lent = slice.clone();
            assert_eq!(call(unit, &mut lent), expected);
            assert!(lent == after, "a slice of {length}");
        }
    }
    assert_eq!(numbers, BTreeSet::from([0, 4]));
}
