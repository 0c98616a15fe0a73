//! Placings of which one thing at a time is not as a point's is, and what is nearest to them that a point has.

use super::super::scene::Scene;
use super::super::{shape, window};
use super::{Placings, Valuing};
use crate::field::Block;
use crate::net::Multiplicities;
use crate::placing::{Placing, place};
use crate::point::largest_divisor;
use crate::random::Random;
use crate::unit::Sizes;

const DIVISOR: u32 = 10;
/// The cells inside are 2 to 4, 1 to 3, 1 to 2.
const SIZES: [usize; 3] = [5, 4, 3];
const LAST: [u32; 3] = [4, 3, 2];
/// A point of this cell, with remainders 3, 1, 6.
const INNER: Placing = Placing { cell: [3, 2, 1], order: [3, 1, 2], weights: [4, 3, 2, 1] };

const ORDERS: [[u8; 3]; 6] = [[1, 2, 3], [1, 3, 2], [2, 1, 3], [2, 3, 1], [3, 1, 2], [3, 2, 1]];

fn net() -> Multiplicities {
    shape([2, 1, 1, 1])
}

/// Of degree 6, where powers of a divisor soon have more than 64 bits.
fn long() -> Multiplicities {
    shape([6, 1, 1, 1])
}

pub fn shapes() -> Vec<Multiplicities> {
    vec![net(), long()]
}

pub fn scenes() -> Vec<Placings> {
    vec![small(), powers()]
}

fn small() -> Placings {
    let sizes = Sizes::new(SIZES).expect("within the limits");
    let mut scene = Scene::new(net(), Block::random(sizes, &mut Random::new(16)));
    scene.ask([33, 21, 16], DIVISOR);
    let case = scene.cases[0];
    assert_eq!(place(&case.unit, case.coordinates, case.divisor), Ok(INNER));
    let all = [orders(), sums(), cells(), ties(), far_faces()].concat();
    let valuings = all.into_iter().map(|placing| Valuing::at(placing, &case)).collect();
    Placings { scene, valuings }
}

/// The largest divisor and the next one, powers of 2, whose 6th powers are 0 in 64 bits, and divisors around these.
fn powers() -> Placings {
    let scene = Scene::new(long(), Block::random(window(long()), &mut Random::new(18)));
    let (case, cell) = (scene.case([0; 3], 0), scene.last_cell().map(|k| k as u32));
    let largest = largest_divisor(long().degree());
    let divisors = [largest, largest + 1, 2048, 4095, 4096, 1 << 16, 1 << 31];
    let placing = |divisor| Placing { cell, order: [1, 2, 3], weights: [divisor - 6, 3, 2, 1] };
    let valuings = divisors.map(|divisor| Valuing::at(placing(divisor), &case)).to_vec();
    Placings { scene, valuings }
}

/// Axes that come twice, and numbers of none.
fn orders() -> Vec<Placing> {
    let twice = [[3, 3, 2], [3, 1, 1], [3, 1, 3], [1, 1, 1]];
    let none = [[0, 1, 2], [3, 0, 2], [3, 1, 0], [4, 1, 2], [3, 4, 2], [3, 1, 4], [0; 3], [255, 1, 2], [3, 1, 255]];
    twice.into_iter().chain(none).map(|order| Placing { order, ..INNER }).collect()
}

/// Weights that sum to 0, to 4096 and to 4097, such as sum to 10 or to 0 in 32 bits alone, and the largest; all at the
/// last cells, with an order that has the lower axis first.
fn sums() -> Vec<Placing> {
    const MAX: u32 = u32::MAX;
    const QUARTER: u32 = 1 << 30;
    let small = [[0; 4], [4093, 1, 1, 1], [4094, 1, 1, 1], [0, 0, 0, 4097]];
    let wrapped = [
        [MAX, 8, 2, 1],
        [4, MAX, 6, 1],
        [4, 3, MAX, 4],
        [4, 4, 3, MAX],
        [1 << 31, (1 << 31) + 7, 2, 1],
        [QUARTER + 4, QUARTER + 3, QUARTER + 2, QUARTER + 1],
        [MAX, 1, 0, 0],
        [MAX, 0, 0, 0],
        [MAX; 4],
    ];
    let placing = |weights| Placing { cell: LAST, order: [1, 2, 3], weights };
    small.into_iter().chain(wrapped).map(placing).collect()
}

/// On each axis the cells next to those inside; and cells that have the inner one's bits below some, of which that from
/// bit 31 on has its coordinate too, in 32 bits.
fn cells() -> Vec<Placing> {
    let near = [(0, 1), (0, 5), (1, 0), (1, 4), (2, 0), (2, 3)];
    let far = (0..3).flat_map(|axis| [1 << 8, 1 << 16, 1 << 31].map(|bit| (axis, INNER.cell[axis] + bit)));
    let moved = |(axis, k): (usize, u32)| {
        let mut placing = INNER;
        placing.cell[axis] = k;
        placing
    };
    let all = near.into_iter().chain(far).map(moved);
    all.chain([[0; 3], [u32::MAX; 3]].map(|cell| Placing { cell, ..INNER })).collect()
}

/// Each order, where two remainders are the same or all are.
fn ties() -> Vec<Placing> {
    let weights = [[4, 0, 5, 1], [4, 5, 0, 1], [4, 0, 0, 6]];
    let with = |weights: [u32; 4]| ORDERS.map(|order| Placing { order, weights, ..INNER });
    weights.into_iter().flat_map(with).collect()
}

/// Remainders that are the divisor, in the last cells and in others.
fn far_faces() -> Vec<Placing> {
    let one = [[1, 2, 3], [2, 3, 1], [3, 1, 2]].map(|order| (order, [0, 5, 4, 1]));
    let two = [[1, 2, 3], [1, 3, 2], [2, 3, 1]].map(|order| (order, [0, 0, 9, 1]));
    let all = one.into_iter().chain(two).chain([([1, 2, 3], [0, 0, 0, DIVISOR])]);
    let cells = [LAST, [3, 3, 2], [4, 2, 2], [4, 3, 1]];
    all.flat_map(|(order, weights)| cells.map(|cell| Placing { cell, order, weights })).collect()
}
