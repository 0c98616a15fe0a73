//! Builds of nets.

use crate::table::Row;
use crate::timing::{keep, shortest};
use crate::{hand, torskavel};
use std::hint::black_box;

pub const ORDERS: [&str; 5] = ["132", "1324", "11111111", "12341234", "44444444"];

/// Those of the order 44444444, the most that a net has.
const MOST_PLACES: usize = 91 * 91 * 91;

pub fn measure(digits: &str) -> Row {
    let order: Vec<u8> = digits.bytes().map(|digit| digit - b'0').collect();
    let unit = torskavel::empty_unit();
    let (mut net, mut work) = (vec![7; MOST_PLACES], vec![0; MOST_PLACES]);
    let (mut hand_net, mut hand_work) = (vec![7; MOST_PLACES], vec![0; MOST_PLACES]);
    let (mut tuned_net, mut tuned_work) = (vec![7; MOST_PLACES], vec![0; MOST_PLACES]);

    let answer = torskavel::build(unit, &order, &mut net, &mut work);
    assert_eq!(answer.number, 0);
    assert_eq!(hand::build(unit, &order, &mut hand_net, &mut hand_work), Ok(answer.unit));
    assert_eq!(hand::build_tuned(unit, &order, &mut tuned_net, &mut tuned_work), Ok(answer.unit));
    assert!(net == hand_net && net == tuned_net, "the nets of {digits} differ");

    let times = shortest(&mut [
        Box::new(|| keep(torskavel::build(unit, black_box(&order), &mut net, &mut work))),
        Box::new(|| keep(hand::build(unit, black_box(&order), &mut hand_net, &mut hand_work))),
        Box::new(|| keep(hand::build_tuned(unit, black_box(&order), &mut tuned_net, &mut tuned_work))),
    ]);
    Row::of(format!("build {digits}"), &times)
}
