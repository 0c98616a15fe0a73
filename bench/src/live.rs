//! Live answers at points.

use crate::hand;
use crate::scene::Scene;
use crate::table::Row;
use crate::timing::{Contestant, shortest};
use std::time::Duration;

pub struct Case {
    v: [u8; 4],
    divisor: u32,
    /// Of the block on each axis.
    size: usize,
    with_uncertainty: bool,
}

const fn case(v: [u8; 4], divisor: u32, size: usize, with_uncertainty: bool) -> Case {
    Case { v, divisor, size, with_uncertainty }
}

pub const CASES: [Case; 6] = [
    case([2, 2, 2, 1], 64, 8, true),
    case([2, 2, 2, 2], 64, 8, true),
    case([3, 3, 3, 3], 4, 8, true),
    case([1, 1, 1, 9], 4, 12, true),
    case([2, 2, 2, 1], 64, 8, false),
    case([3, 3, 3, 3], 4, 8, false),
];

fn assert_agreement(scene: &Scene, on: bool) {
    for &point in &scene.points {
        let answer = scene.by_library_live(point, on);
        assert_eq!((answer.number, answer.place), (0, 0), "{point:?}");
        let bits = Ok([answer.numerator.to_bits(), answer.uncertainty.to_bits()]);
        let call = &scene.hand_call(point);
        assert_eq!(hand::live_answer(call, on).map(|floats| floats.bits()), bits, "{point:?}");
        for (shape, tuned) in hand::SHAPES.into_iter().zip(hand::live_tuned()) {
            assert_eq!(tuned(call, on).map(|floats| floats.bits()), bits, "{shape} {point:?}");
        }
    }
}

/// The times of one point, on average over those of the scene, and that of the library's exact call there.
pub fn measure(case: Case) -> (Row, Duration) {
    let Case { v: [v1, v2, v3, v4], divisor, size, with_uncertainty: on } = case;
    let scene = &Scene::new(case.v, divisor, size);
    assert_agreement(scene, on);
    let mut contestants: Vec<Contestant> = vec![
        Box::new(|| scene.each(|point| scene.by_library(point))),
        Box::new(|| scene.each(|point| scene.by_library_live(point, on))),
        Box::new(|| scene.each(|point| hand::live_answer(&scene.hand_call(point), on))),
    ];
    for tuned in hand::live_tuned() {
        contestants.push(Box::new(move || scene.each(|point| tuned(&scene.hand_call(point), on))));
    }
    let times: Vec<Duration> = shortest(&mut contestants).iter().map(|time| scene.of_each(time)).collect();
    let alone = if on { "" } else { ", N alone" };
    (Row::of(format!("live, {v1} {v2} {v3} {v4}, D = {divisor}{alone}"), &times[1..]), times[0])
}
