//! Exact answers at points.

use crate::hand::{self, Fraction};
use crate::scene::Scene;
use crate::table::{Recursion, Row};
use crate::timing::{Contestant, shortest};
use crate::torskavel::PointAnswer;
use evaluator::point as recursion;

/// Multiplicities, divisor, and the size of the block on each axis.
pub const CASES: [([u8; 4], u32, usize); 4] =
    [([2, 2, 2, 1], 64, 8), ([2, 2, 2, 2], 64, 8), ([3, 3, 3, 3], 9, 8), ([1, 1, 1, 9], 9, 12)];

fn assert_agreement(scene: &Scene) {
    for &point in &scene.points {
        let PointAnswer { number, place, numerator, uncertainty, denominator } = scene.by_library(point);
        assert_eq!((number, place), (0, 0), "{point:?}");
        let answer = Ok(Fraction { numerator, uncertainty, denominator });
        assert_eq!(hand::answer(&scene.hand_call(point)), answer, "{point:?}");
        for (shape, tuned) in hand::SHAPES.into_iter().zip(hand::tuned()) {
            assert_eq!(tuned(&scene.hand_call(point)), answer, "{shape} {point:?}");
        }
        let answer = Ok(recursion::Fraction { numerator, uncertainty, denominator });
        assert_eq!(recursion::answer(&scene.recursion_call(point)), answer, "{point:?}");
        if point == scene.points[0] {
            let alone = recursion::answer_without_tables(&scene.recursion_call(point));
            assert_eq!(alone, answer, "{point:?}");
        }
    }
}

/// The times of one point: on average over those of the scene, and of the first alone by the recursion
/// without tables.
pub fn measure(v: [u8; 4], divisor: u32, size: usize) -> Row {
    let scene = &Scene::new(v, divisor, size);
    assert_agreement(scene);
    let mut contestants: Vec<Contestant> = vec![
        Box::new(|| scene.each(|point| scene.by_library(point))),
        Box::new(|| scene.each(|point| recursion::answer(&scene.recursion_call(point)))),
        Box::new(|| scene.first(|point| recursion::answer_without_tables(&scene.recursion_call(point)))),
        Box::new(|| scene.each(|point| hand::answer(&scene.hand_call(point)))),
    ];
    for tuned in hand::tuned() {
        contestants.push(Box::new(move || scene.each(|point| tuned(&scene.hand_call(point)))));
    }
    let times = shortest(&mut contestants);
    Row {
        call: format!("point, {} {} {} {}, D = {divisor}", v[0], v[1], v[2], v[3]),
        library: scene.of_each(&times[0]),
        recursion: Some(Recursion { with_tables: scene.of_each(&times[1]), alone: times[2] }),
        hand: scene.of_each(&times[3]),
        tuned: times[4..].iter().map(|time| scene.of_each(time)).collect(),
    }
}
