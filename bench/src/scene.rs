//! Points of a block with measured entries throughout, and the calls that are made at them.

use crate::hand;
use crate::timing::keep;
use crate::torskavel::{self, LivePointAnswer, PointAnswer, Unit};
use evaluator::field::Block;
use evaluator::net::Multiplicities;
use evaluator::point as recursion;
use evaluator::random::Random;
use evaluator::unit::{Origin, Sizes};
use std::hint::black_box;
use std::time::Duration;

/// Anywhere inside, so that the axes come in several orders.
const POINTS: usize = 24;

/// Of the blocks: 0 is within the first axis, before the second and past the third.
pub const ORIGIN: Origin = [-4, 3, -1000];

/// A unit, what it is lent, and the points it is asked.
pub struct Scene {
    pub unit: Unit,
    multiplicities: Multiplicities,
    pub net: Vec<u32>,
    pub block: Block,
    pub divisor: u32,
    pub points: Vec<[i32; 3]>,
}

impl Scene {
    pub fn new(v: [u8; 4], divisor: u32, size: usize) -> Scene {
        let multiplicities = Multiplicities::new(v.map(usize::from)).expect("allowed multiplicities");
        let mut random = Random::new(1);
        let block =
            Block::random(Sizes::new([size; 3]).expect("allowed sizes"), &mut random).moved_to(ORIGIN);
        let mut loaded = torskavel::empty_unit();
        (loaded.has_block, loaded.n1, loaded.n2, loaded.n3) = (1, size as u16, size as u16, size as u16);
        [loaded.o1, loaded.o2, loaded.o3] = ORIGIN;
        let (mut net, mut work) = (vec![0; multiplicities.places()], vec![0; multiplicities.places()]);
        let unit = torskavel::build(loaded, &hand::defined_order(v), &mut net, &mut work).unit;
        let cells = multiplicities.extents().map(|extent| (extent - 1) * divisor as usize);
        let mut inside = |b: usize| {
            let steps = random.between(cells[b], size * divisor as usize - 1) as i32;
            i32::from(ORIGIN[b]) * divisor as i32 + steps
        };
        let points = (0..POINTS).map(|_| [inside(0), inside(1), inside(2)]).collect();
        Scene { unit, multiplicities, net, block, divisor, points }
    }

    pub fn by_library(&self, point: [i32; 3]) -> PointAnswer {
        let Block { corrections, uncertainties, .. } = &self.block;
        torskavel::answer(self.unit, &self.net, corrections, uncertainties, point, self.divisor)
    }

    pub fn by_library_live(&self, point: [i32; 3], with_uncertainty: bool) -> LivePointAnswer {
        let Block { corrections, uncertainties, .. } = &self.block;
        let (unit, net) = (self.unit, &self.net);
        torskavel::live_answer(unit, net, corrections, uncertainties, point, self.divisor, with_uncertainty)
    }

    pub fn hand_call(&self, coordinates: [i32; 3]) -> hand::Call<'_> {
        let Block { corrections, uncertainties, .. } = &self.block;
        hand::Call {
            unit: self.unit,
            net: &self.net,
            corrections,
            uncertainties,
            coordinates,
            divisor: self.divisor,
        }
    }

    pub fn recursion_call(&self, coordinates: [i32; 3]) -> recursion::Call<'_> {
        let Block { sizes, origin, corrections, uncertainties } = &self.block;
        let unit = evaluator::unit::Unit::EMPTY.with_net(self.multiplicities).with_block(*sizes, *origin);
        let (net_length, divisor) = (self.net.len(), self.divisor);
        recursion::Call { unit, net_length, corrections, uncertainties, coordinates, divisor }
    }

    /// Makes a call at each point.
    pub fn each<T>(&self, call: impl Fn([i32; 3]) -> T) {
        for &point in &self.points {
            keep(call(black_box(point)));
        }
    }

    pub fn first<T>(&self, call: impl Fn([i32; 3]) -> T) {
        keep(call(black_box(self.points[0])));
    }

    /// The time of one point, from that of all.
    pub fn of_each(&self, time: &Duration) -> Duration {
        *time / self.points.len() as u32
    }
}
