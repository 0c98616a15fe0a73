//! Calls at the same time over one net and one block that nobody writes.

use crate::Outcome;
use crate::answers::{Answered, Handed, LiveBits, number, point_answer};
use crate::calls::expect;
use crate::random::points::Asked;
use crate::report::Tally;
use crate::shelf::Shelf;
use crate::torskavel;
use evaluator::field::Block;
use evaluator::net::Multiplicities;
use evaluator::point::Call;
use evaluator::random::Random;
use evaluator::unit::{Origin, Sizes, Unit};
use evaluator::{lent, live};
use std::thread;

const THREADS: usize = 4;
const POINTS: usize = 500;
const SIZE: usize = 16;
const DIVISOR: u32 = 64;
const ORIGIN: Origin = [-8, 0, 300];

/// What all threads share, and the exact answer of each point.
struct Scene<'a> {
    unit: Unit,
    v: [u8; 4],
    net: &'a [u32],
    block: Block,
    points: Vec<([i32; 3], Answered)>,
}

impl Scene<'_> {
    fn new(seed: u64, shelf: &Shelf) -> Scene<'_> {
        let v = Multiplicities::new([2, 2, 1, 2]).expect("a net");
        let (net, sizes) = (&shelf.net(v).numbers[..], Sizes::new([SIZE; 3]).expect("sizes"));
        let random = &mut Random::new(seed);
        let block = Block::random(sizes, random);
        let unit = Unit::EMPTY.with_net(v).with_block(sizes, ORIGIN);
        let mut scene = Scene { unit, v: v.counts().map(|v| v as u8), net, block, points: Vec::new() };
        for _ in 0..POINTS {
            let point =
                ORIGIN.map(|o| i32::from(o) * DIVISOR as i32 + random.between(0, SIZE * DIVISOR as usize) as i32);
            scene.points.push((point, lent::answer(&scene.call(point), net)));
        }
        scene
    }

    fn call(&self, coordinates: [i32; 3]) -> Call<'_> {
        let Scene { unit, net, block: Block { corrections, uncertainties, .. }, .. } = self;
        Call { unit: *unit, net_length: net.len(), corrections, uncertainties, coordinates, divisor: DIVISOR }
    }

    fn ask_point(&self, asked: Asked, point: [i32; 3], exact: &Answered) -> Outcome {
        let (unit, net) = (Handed::from(self.unit).record(), self.net);
        let Block { corrections, uncertainties, .. } = &self.block;
        match asked {
            Asked::Exact => {
                let answer = torskavel::answer(unit, net, corrections, uncertainties, point, DIVISOR);
                expect(point_answer(exact), answer)
            }
            Asked::Live => {
                let expected = live::answer(&self.call(point), *exact, true);
                let answer = torskavel::live_answer(unit, net, corrections, uncertainties, point, DIVISOR, true);
                expect(LiveBits::from(&expected), answer.into())
            }
        }
    }

    /// All points from one on, and now and then an inspection of the net that the others read.
    fn ask(&self, asked: Asked, from: usize) -> Outcome {
        let unit = Handed::from(self.unit).record();
        let (mut defined, mut work) = (vec![0; self.net.len()], vec![0; self.net.len()]);
        for turn in 0..POINTS {
            let (point, exact) = &self.points[(from + turn) % POINTS];
            let asked_point = self.ask_point(asked, *point, exact);
            asked_point.map_err(|failure| format!("{point:?} over {DIVISOR}: {failure}"))?;
            if turn % 50 == 0 {
                let answer = torskavel::inspect(unit, self.v, self.net, &mut defined, &mut work);
                expect((0, unit), (answer.number, answer.unit))?;
            }
        }
        Ok(())
    }
}

/// Every thread asks all points, each beginning elsewhere; no divisor here meets 15.
pub fn run(asked: Asked, seed: u64, shelf: &Shelf, tally: &mut Tally) -> Outcome {
    let scene = &Scene::new(seed, shelf);
    thread::scope(|scope| {
        let ask = |t: usize| scope.spawn(move || scene.ask(asked, t * POINTS / THREADS));
        let asking: Vec<_> = (0..THREADS).map(ask).collect();
        asking.into_iter().try_for_each(|thread| thread.join().map_err(|_| "a thread stopped".to_string())?)
    })?;
    for (_, exact) in scene.points.iter().cycle().take(THREADS * POINTS) {
        tally.count(number(exact));
    }
    Ok(())
}
