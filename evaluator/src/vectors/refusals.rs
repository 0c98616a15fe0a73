//! Each refusal of the point call alone and together with each other one, which shows the order of the checks; and on a
//! far face, where it is alone or with what is found in the window. The live call has fewer cases of a pair.

pub mod moved;

use super::scene::{Case, Scene};
use super::{Shelf, shape};
use crate::field::{Block, NEVER_MEASURED};
use crate::live;
use crate::net::Multiplicities;
use crate::point::{LARGEST_DIVISOR, largest_divisor};
use crate::random::Random;
use crate::unit::{Refusal, Sizes, Unit};
use std::fmt::Debug;

const CHECKS: [u8; 9] = [21, 22, 4, 9, 10, 11, 12, 13, 23];
const LIVE_CHECKS: [u8; 10] = [21, 22, 4, 9, 10, 11, 15, 12, 13, 23];
const SIZES: [usize; 3] = [4, 5, 3];
const DIVISOR: u32 = 10;

/// Of a degree where 11 can apply without 10, and 15 without either.
fn net() -> Multiplicities {
    shape([2, 2, 2, 1])
}

pub fn shapes() -> Vec<Multiplicities> {
    vec![net()]
}

/// Whether the block has a gap, and whether the net is damaged.
pub const KINDS: [(bool, bool); 4] = [(false, false), (true, false), (false, true), (true, true)];

pub fn scenes(shelf: &Shelf) -> Vec<Scene> {
    Vec::from(KINDS.map(|(has_gap, is_damaged)| scene(has_gap, is_damaged, shelf)))
}

pub fn live_scenes(shelf: &Shelf) -> Vec<Scene> {
    Vec::from(KINDS.map(|(has_gap, is_damaged)| live_scene(has_gap, is_damaged, shelf)))
}

/// The pairs of checks, each also with itself, that have 13 exactly where the block has a gap, and 23 exactly
/// where the net is damaged; the earlier one is first.
pub fn pairs(checks: &[u8], has_gap: bool, is_damaged: bool) -> Vec<[u8; 2]> {
    let all = (0..checks.len()).flat_map(|i| checks[i..].iter().map(move |&later| [checks[i], later]));
    all.filter(|p| p.contains(&13) == has_gap && p.contains(&23) == is_damaged).collect()
}

/// The point that a call asks, by its divisor.
type PointAt = fn(&Scene, u32) -> [i32; 3];

/// The lowest point inside.
pub fn inside(scene: &Scene, divisor: u32) -> [i32; 3] {
    scene.at(scene.first_cell(), [0; 3], divisor)
}

/// The same on the far face of axis 3.
fn far(scene: &Scene, divisor: u32) -> [i32; 3] {
    scene.moved_far(inside(scene, divisor), &[2], divisor)
}

/// A scene without cases.
pub fn setting(has_gap: bool, is_damaged: bool) -> Scene {
    let sizes = Sizes::new(SIZES).expect("within the limits");
    let mut scene = Scene::new(net(), Block::random(sizes, &mut Random::new(2)));
    if has_gap {
        scene.block.corrections[7..9].fill(NEVER_MEASURED);
    }
    if is_damaged {
        scene.changes.push((0, 1));
    }
    scene
}

fn scene(has_gap: bool, is_damaged: bool, shelf: &Shelf) -> Scene {
    let mut scene = setting(has_gap, is_damaged);
    let is_sound = !has_gap && !is_damaged;
    let lent_numbers = scene.lent_numbers(shelf);
    let own = pairs(&CHECKS, has_gap, is_damaged);
    let asked = own.iter().map(|pair| (*pair, inside as PointAt));
    let asked_far = own.iter().filter(|p| !is_sound || p[0] == p[1]).map(|pair| (*pair, far as PointAt));
    for (pair, point_at) in asked.chain(asked_far) {
        let cases = cases(&scene, pair, point_at);
        for case in &cases {
            assert_refused(pair, scene.answer(case, &lent_numbers));
        }
        scene.cases.extend(cases);
    }
    if is_sound {
        scene.ask(far(&scene, DIVISOR), DIVISOR);
    }
    scene
}

/// A check alone has all its cases, one with another the first of them. Over a sound net and block two points more
/// without a divisor, before the origin and at it.
fn live_scene(has_gap: bool, is_damaged: bool, shelf: &Shelf) -> Scene {
    let mut scene = setting(has_gap, is_damaged);
    let lent_numbers = scene.lent_numbers(shelf);
    for pair in pairs(&LIVE_CHECKS, has_gap, is_damaged) {
        let mut cases = cases(&scene, pair, inside);
        if pair[0] != pair[1] {
            cases.truncate(1);
        }
        for case in &cases {
            assert_refused(pair, live::answer(&scene.call(case), scene.answer(case, &lent_numbers), true));
        }
        scene.cases.extend(cases);
    }
    if !has_gap && !is_damaged {
        scene.ask([-1; 3], 0);
        scene.ask([0; 3], 0);
    }
    scene
}

pub fn assert_refused<T: Debug>(pair: [u8; 2], answer: Result<T, Refusal>) {
    let refusal = answer.expect_err("a fault is refused");
    assert_eq!(refusal.number, pair[0], "the earlier of {pair:?}");
}

/// The call that would be answered but for the scene's gap and damage, with the faults of the pair.
pub fn cases(scene: &Scene, pair: [u8; 2], point_at: PointAt) -> Vec<Case> {
    let sound = scene.case(point_at(scene, DIVISOR), DIVISOR);
    let first: Vec<Case> = with_fault(scene, sound, pair[0], point_at);
    if pair[0] == pair[1] {
        return first;
    }
    first.into_iter().flat_map(|case| with_fault(scene, case, pair[1], point_at)).collect()
}

fn with_fault(scene: &Scene, case: Case, number: u8, point_at: PointAt) -> Vec<Case> {
    let Case { unit, lengths, .. } = case;
    let with_units = |units: Vec<Unit>| units.into_iter().map(|unit| Case { unit, ..case }).collect();
    let with_lengths = |all: Vec<[usize; 3]>| all.into_iter().map(|lengths| Case { lengths, ..case }).collect();
    let (largest, live_largest) = (largest_divisor(net().degree()), live::largest_divisor(net().degree()));
    let with_divisors = |divisors: &[u32]| with_divisors(case, divisors, |divisor| point_at(scene, divisor));
    let meets_10 = case.divisor == 0 || case.divisor > LARGEST_DIVISOR;
    match number {
        21 => with_units(units_without_net(unit)),
        22 => with_units(units_without_block(unit)),
        4 => with_lengths(vec![[net().places() - 1, lengths[1], lengths[2]], [0, lengths[1], lengths[2]]]),
        9 => with_lengths(vec![[lengths[0], lengths[1] - 1, lengths[2]], [lengths[0], lengths[1], lengths[2] - 1]]),
        10 => with_divisors(&[0, LARGEST_DIVISOR + 1, u32::MAX]),
        // Where an earlier check of it applies too, the divisor stays.
        11 if meets_10 => vec![case],
        15 if meets_10 || case.divisor > largest => vec![case],
        15 => with_divisors(&[live_largest + 1, largest]),
        11 => with_divisors(&[largest + 1, LARGEST_DIVISOR]),
        12 => outside(scene, case),
        _ => vec![case],
    }
}

fn units_without_net(unit: Unit) -> Vec<Unit> {
    let mut units = vec![Unit { has_net: false, ..unit }];
    units.extend([[2, 2, 0, 1], [2, 2, 2, 7], [255; 4]].map(|v| Unit { v, ..unit }));
    units
}

fn units_without_block(unit: Unit) -> Vec<Unit> {
    let mut units = vec![Unit { has_block: false, ..unit }];
    units.extend([[4, 0, 3], [65, 5, 3], [64, 64, 2], [65535; 3]].map(|n| Unit { n, ..unit }));
    units
}

/// The same cell at other divisors.
fn with_divisors(case: Case, divisors: &[u32], point_at: impl Fn(u32) -> [i32; 3]) -> Vec<Case> {
    divisors.iter().map(|&divisor| Case { coordinates: point_at(divisor), divisor, ..case }).collect()
}

/// Outside by one on the low side of an axis, on the high side of another, and before the origin on the third.
fn outside(scene: &Scene, case: Case) -> Vec<Case> {
    let moved = |axis: usize, coordinate: i32| {
        let mut coordinates = case.coordinates;
        coordinates[axis] = coordinate;
        Case { coordinates, ..case }
    };
    let past = scene.at(case.unit.n.map(usize::from), [1; 3], case.divisor)[1];
    let before = scene.at([0; 3], [0; 3], case.divisor)[2].saturating_sub(1);
    vec![moved(0, case.coordinates[0].saturating_sub(1)), moved(1, past), moved(2, before)]
}
