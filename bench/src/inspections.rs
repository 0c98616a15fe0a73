//! Inspections of nets that pass.

use crate::table::Row;
use crate::timing::{keep, shortest};
use crate::{hand, torskavel};
use std::hint::black_box;

/// Multiplicities.
pub const CASES: [[u8; 4]; 2] = [[2, 2, 2, 1], [3, 3, 3, 3]];

pub fn measure(v: [u8; 4]) -> Row {
    let unit = torskavel::empty_unit();
    let places = torskavel::places(v);
    let (mut net, mut defined, mut work) = (vec![0; places], vec![0; places], vec![0; places]);
    torskavel::build(unit, &hand::defined_order(v), &mut net, &mut work);
    let net = &net;
    let [mut hand_defined, mut hand_work] = [vec![0; places], vec![0; places]];
    let [mut tuned_defined, mut tuned_work] = [vec![0; places], vec![0; places]];

    let answer = torskavel::inspect(unit, v, net, &mut defined, &mut work);
    assert_eq!(answer.number, 0);
    assert_eq!(hand::inspect(unit, v, net, &mut hand_defined, &mut hand_work), Ok(answer.unit));
    assert_eq!(hand::inspect_tuned(unit, v, net, &mut tuned_defined, &mut tuned_work), Ok(answer.unit));

    let times = shortest(&mut [
        Box::new(|| keep(torskavel::inspect(unit, black_box(v), net, &mut defined, &mut work))),
        Box::new(|| keep(hand::inspect(unit, black_box(v), net, &mut hand_defined, &mut hand_work))),
        Box::new(|| keep(hand::inspect_tuned(unit, black_box(v), net, &mut tuned_defined, &mut tuned_work))),
    ]);
    Row::of(format!("inspect {} {} {} {}", v[0], v[1], v[2], v[3]), &times)
}
