//! Each refusal of the placing call and of the valuing calls alone and together with each other one, which shows the
//! order of the checks.

use super::super::Shelf;
use super::super::refusals::{self, assert_refused, cases, inside, pairs, setting};
use super::super::scene::{Case, Scene};
use super::{Placings, Valuing};
use crate::live;
use crate::net::Multiplicities;
use crate::placing::{Placing, place};
use crate::point::largest_divisor;

pub const PLACING_CHECKS: [u8; 5] = [21, 22, 10, 11, 12];
/// Those of the live call; the exact one has no 15.
const VALUING_CHECKS: [u8; 8] = [21, 22, 17, 15, 4, 9, 13, 23];

pub fn shapes() -> Vec<Multiplicities> {
    refusals::shapes()
}

pub fn scenes(shelf: &Shelf) -> Vec<Placings> {
    Vec::from(refusals::KINDS.map(|(has_gap, is_damaged)| scene(has_gap, is_damaged, shelf)))
}

fn scene(has_gap: bool, is_damaged: bool, shelf: &Shelf) -> Placings {
    let mut scene = setting(has_gap, is_damaged);
    for pair in pairs(&PLACING_CHECKS, has_gap, is_damaged) {
        let cases = some_cases(&scene, pair);
        for case in &cases {
            assert_refused(pair, place(&case.unit, case.coordinates, case.divisor));
        }
        scene.cases.extend(cases);
    }
    let mut placings = Placings { scene, valuings: Vec::new() };
    let lent_numbers = placings.scene.lent_numbers(shelf);
    for pair in pairs(&VALUING_CHECKS, has_gap, is_damaged) {
        let valuings = valuings(&placings.scene, pair);
        for valuing in &valuings {
            let exact = placings.answer(valuing, &lent_numbers);
            assert_refused(pair, live::value(&placings.call(valuing), exact, true));
        }
        placings.valuings.extend(valuings);
    }
    placings
}

/// A check alone has all its cases, one with another the first of them.
fn some_cases(scene: &Scene, pair: [u8; 2]) -> Vec<Case> {
    let mut cases = cases(scene, pair, inside);
    if pair[0] != pair[1] {
        cases.truncate(1);
    }
    cases
}

/// The calls at the placing of the point that a faulty case asks, broken in each way where 17 is one of the faults.
fn valuings(scene: &Scene, pair: [u8; 2]) -> Vec<Valuing> {
    let sound = scene.case([0; 3], 0).unit;
    let at_point = |case: &Case| {
        let placing = place(&sound, case.coordinates, case.divisor).expect("no fault of the point");
        Valuing::at(placing, case)
    };
    let valuings = some_cases(scene, pair).iter().map(at_point).collect::<Vec<_>>();
    if !pair.contains(&17) {
        return valuings;
    }
    let past = largest_divisor(scene.net.degree()) + 1;
    let each_way = |valuing: Valuing| broken(valuing.placing, past).map(|placing| Valuing { placing, ..valuing });
    valuings.into_iter().flat_map(each_way).collect()
}

/// All zeros, as a refused placing call answers in C; and the placing of a low corner with an axis that comes twice, no
/// divisor, one that is too large, a cell outside, the higher axis first, and remainders of a far face.
pub fn broken(placing: Placing, too_large: u32) -> [Placing; 7] {
    let Placing { cell: [k1, k2, k3], weights: [divisor, ..], .. } = placing;
    [
        Placing { cell: [0; 3], order: [0; 3], weights: [0; 4] },
        Placing { order: [1, 1, 2], ..placing },
        Placing { weights: [0; 4], ..placing },
        Placing { weights: [too_large, 0, 0, 0], ..placing },
        Placing { cell: [k1 - 1, k2, k3], ..placing },
        Placing { order: [2, 1, 3], ..placing },
        Placing { weights: [0, 0, 0, divisor], ..placing },
    ]
}
