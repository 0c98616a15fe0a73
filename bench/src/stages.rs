//! Stages: two blocks, one for each axis that is corrected, asked at one point. The point is placed once and
//! valued twice, or asked by two whole calls.

use crate::hand::{self, Answer, Call, Floats, Fraction, LiveAnswer, Refusal, Valuing};
use crate::scene::Scene;
use crate::table::Row;
use crate::timing::{Contestant, shortest};
use crate::torskavel::{self, LivePointAnswer, Placing, PointAnswer};
use evaluator::field::Block;
use evaluator::random::Random;
use std::time::Duration;

pub struct Case {
    v: [u8; 4],
    divisor: u32,
    is_live: bool,
}

const fn case(v: [u8; 4], divisor: u32, is_live: bool) -> Case {
    Case { v, divisor, is_live }
}

pub const CASES: [Case; 4] = [
    case([2, 2, 2, 1], 64, false),
    case([3, 3, 3, 3], 9, false),
    case([2, 2, 2, 1], 64, true),
    case([3, 3, 3, 3], 4, true),
];

/// Of the blocks on each axis.
const SIZE: usize = 8;

/// An answer in a form in which all contestants' are compared: floats as their bits.
trait Told {
    fn told(&self) -> Result<[u64; 3], Refusal>;
}

impl Told for PointAnswer {
    fn told(&self) -> Result<[u64; 3], Refusal> {
        let &PointAnswer { number, place, numerator, uncertainty, denominator } = self;
        let numbers = [numerator as u64, uncertainty, denominator];
        if number == 0 { Ok(numbers) } else { Err(Refusal { number, place }) }
    }
}

impl Told for LivePointAnswer {
    fn told(&self) -> Result<[u64; 3], Refusal> {
        let &LivePointAnswer { number, place, numerator, uncertainty } = self;
        let numbers = [numerator.to_bits(), uncertainty.to_bits(), 0];
        if number == 0 { Ok(numbers) } else { Err(Refusal { number, place }) }
    }
}

impl Told for Result<Fraction, Refusal> {
    fn told(&self) -> Result<[u64; 3], Refusal> {
        self.map(|Fraction { numerator, uncertainty, denominator }| {
            [numerator as u64, uncertainty, denominator]
        })
    }
}

impl Told for Result<Floats, Refusal> {
    fn told(&self) -> Result<[u64; 3], Refusal> {
        self.map(|floats| {
            let [numerator, uncertainty] = floats.bits();
            [numerator, uncertainty, 0]
        })
    }
}

struct Stage {
    scene: Scene,
    second: Block,
}

impl Stage {
    fn new(v: [u8; 4], divisor: u32) -> Stage {
        let scene = Scene::new(v, divisor, SIZE);
        let second = Block::random(scene.block.sizes, &mut Random::new(2));
        Stage { scene, second }
    }

    /// Asks both blocks at a placing.
    fn at_placing<'a, T>(&'a self, placing: Placing, value: impl Fn(&Valuing<'a>) -> T) -> [T; 2] {
        let Scene { unit, net, block, .. } = &self.scene;
        [block, &self.second].map(|Block { corrections, uncertainties, .. }| {
            value(&Valuing { unit: *unit, net, corrections, uncertainties, placing })
        })
    }

    /// Asks both at a point.
    fn at_point<T>(&self, coordinates: [i32; 3], answer: impl Fn(&Call) -> T) -> [T; 2] {
        let Block { corrections, uncertainties, .. } = &self.second;
        let call = self.scene.hand_call(coordinates);
        [answer(&call), answer(&Call { corrections, uncertainties, ..call })]
    }
}

/// The library's calls, at a placing and at a point, and those by hand at a placing: straight, then tuned.
struct Calls<'a, L, H> {
    value: fn(&Valuing) -> L,
    whole: fn(&Call) -> L,
    hand: Vec<ByHand<'a, H>>,
}

type ByHand<'a, H> = Box<dyn Fn(&Valuing<'a>) -> H + 'a>;

impl<'a, L: Told, H: Told> Calls<'a, L, H> {
    /// Nothing where the placing call is refused.
    fn by_library(&self, stage: &Stage, point: [i32; 3]) -> Option<[L; 2]> {
        let placed = torskavel::place(stage.scene.unit, point, stage.scene.divisor);
        (placed.number == 0).then(|| stage.at_placing(placed.placing, self.value))
    }

    fn by_hand(&self, shape: usize, stage: &'a Stage, point: [i32; 3]) -> Option<[H; 2]> {
        let placed = hand::place(stage.scene.unit, point, stage.scene.divisor);
        placed.ok().map(|placing| stage.at_placing(placing, &*self.hand[shape]))
    }

    fn assert_agreement(&self, stage: &'a Stage) {
        for &point in &stage.scene.points {
            let whole = stage.at_point(point, self.whole).map(|answer| answer.told());
            assert!(whole.iter().all(Result::is_ok), "{point:?}");
            let library = self.by_library(stage, point).expect("a point inside");
            assert_eq!(library.map(|answer| answer.told()), whole, "{point:?}");
            for shape in 0..self.hand.len() {
                let hand = self.by_hand(shape, stage, point).expect("a point inside");
                assert_eq!(hand.map(|answer| answer.told()), whole, "{shape} {point:?}");
            }
        }
    }

    fn measure(&self, call: String, stage: &'a Stage) -> (Row, Duration) {
        self.assert_agreement(stage);
        let scene = &stage.scene;
        let mut contestants: Vec<Contestant> = vec![
            Box::new(|| scene.each(|point| stage.at_point(point, self.whole))),
            Box::new(|| scene.each(|point| self.by_library(stage, point))),
        ];
        for shape in 0..self.hand.len() {
            contestants.push(Box::new(move || scene.each(|point| self.by_hand(shape, stage, point))));
        }
        let times: Vec<Duration> =
            shortest(&mut contestants).iter().map(|time| scene.of_each(time)).collect();
        (Row::of(call, &times[1..]), times[0])
    }
}

fn exact<'a>() -> Calls<'a, PointAnswer, Result<Fraction, Refusal>> {
    let straight: Answer<Valuing<'a>> = hand::answer;
    let by_hand = [straight].into_iter().chain(hand::tuned());
    Calls {
        value: |&Valuing { unit, net, corrections, uncertainties, placing }| {
            torskavel::value(unit, net, corrections, uncertainties, placing)
        },
        whole: |&Call { unit, net, corrections, uncertainties, coordinates, divisor }| {
            torskavel::answer(unit, net, corrections, uncertainties, coordinates, divisor)
        },
        hand: by_hand.map(|value| -> ByHand<'a, _> { Box::new(value) }).collect(),
    }
}

/// With the uncertainty.
fn live<'a>() -> Calls<'a, LivePointAnswer, Result<Floats, Refusal>> {
    let straight: LiveAnswer<Valuing<'a>> = hand::live_answer;
    let by_hand = [straight].into_iter().chain(hand::live_tuned());
    Calls {
        value: |&Valuing { unit, net, corrections, uncertainties, placing }| {
            torskavel::live_value(unit, net, corrections, uncertainties, placing, true)
        },
        whole: |&Call { unit, net, corrections, uncertainties, coordinates, divisor }| {
            torskavel::live_answer(unit, net, corrections, uncertainties, coordinates, divisor, true)
        },
        hand: by_hand
            .map(|value| -> ByHand<'a, _> { Box::new(move |valuing| value(valuing, true)) })
            .collect(),
    }
}

/// The times of one point, on average over those of the scene, and that of two whole calls there.
pub fn measure(case: Case) -> (Row, Duration) {
    let Case { v: [v1, v2, v3, v4], divisor, is_live } = case;
    let stage = &Stage::new(case.v, divisor);
    let name = |call: &str| format!("{call}, {v1} {v2} {v3} {v4}, D = {divisor}");
    if is_live { live().measure(name("live stage"), stage) } else { exact().measure(name("stage"), stage) }
}
