//! Factory calls.

use crate::hand::{self, Factory, Refusal};
use crate::table::Row;
use crate::timing::{Contestant, keep, shortest};
use crate::torskavel::{self, Unit};
use evaluator::calls::factory_shape;
use evaluator::net::Net;
use std::cell::RefCell;
use std::hint::black_box;
use std::time::Duration;

const ORDER: [u8; 3] = [1, 3, 2];

/// A turn copies to slices that start at so many places of a page, so far apart: a copy takes longer where
/// slice and table lie alike in their pages, and of the library's table nobody can say where it lies.
const STARTS: usize = 64;
const APART: usize = 16;

pub fn by_library(unit: Unit, net: &mut [u32]) -> Result<Unit, Refusal> {
    hand::result(torskavel::factory(unit, net))
}

fn assert_agreement(unit: Unit, calls: &[Factory]) {
    let net = Net::of(factory_shape());
    let copied = Unit { has_net: 1, v1: 2, v2: 2, v3: 2, v4: 1, ..unit };
    for call in calls {
        let mut slice = vec![7; net.numbers.len() + 1];
        assert_eq!(call(unit, &mut slice), Ok(copied));
        assert!(slice.pop() == Some(7) && slice == net.numbers, "a copy is not the net");
    }
}

/// The times of one call, on average over the starts, and that of the library's build of the same net.
pub fn measure() -> (Row, Duration) {
    let unit = torskavel::empty_unit();
    let places = factory_shape().places();
    let calls: [Factory; 3] = [by_library, hand::factory, hand::factory_tuned];
    assert_agreement(unit, &calls);

    let (page, mut work) = (RefCell::new(vec![7; places + STARTS * APART]), vec![0; places]);
    let each_start = |call: &mut dyn FnMut(&mut [u32])| {
        let mut page = page.borrow_mut();
        for start in 0..STARTS {
            call(black_box(&mut page[start * APART..][..places]));
        }
    };
    let mut build = |net: &mut [u32]| keep(torskavel::build(unit, black_box(&ORDER), net, &mut work));
    let mut contestants: Vec<Contestant> = Vec::new();
    for call in calls {
        contestants.push(Box::new(move || each_start(&mut |net| keep(call(black_box(unit), net)))));
    }
    contestants.push(Box::new(|| each_start(&mut build)));
    let times: Vec<Duration> = shortest(&mut contestants).iter().map(|&time| time / STARTS as u32).collect();
    (Row::of("factory 2 2 2 1".to_string(), &times[..3]), times[3])
}
