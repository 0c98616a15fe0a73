//! The refusals that divisor and coordinates meet, alone and with each other one, in a block that begins elsewhere than
//! at 0.

use super::super::Shelf;
use super::super::scene::{Case, Scene};
use super::{CHECKS, KINDS, LIVE_CHECKS, assert_refused, cases, inside, pairs};
use crate::live;
use crate::unit::{Origin, Refusal};

/// At the ends of the numbers that an origin can be, and before 0.
const ORIGIN: Origin = [-32768, 32767, -1];

/// A scene without cases.
pub fn setting(has_gap: bool, is_damaged: bool) -> Scene {
    let mut scene = super::setting(has_gap, is_damaged);
    scene.block.origin = ORIGIN;
    scene
}

/// A check alone has all its cases, one with another the last of them: if 12 is one of the two, a point before the
/// origin.
pub fn some_cases(scene: &Scene, pair: [u8; 2]) -> Vec<Case> {
    let mut cases = cases(scene, pair, inside);
    if pair[0] != pair[1] {
        cases.drain(..cases.len() - 1);
    }
    cases
}

pub fn scenes(shelf: &Shelf) -> Vec<Scene> {
    let refused = |scene: &Scene, case: &Case| scene.answer(case, &scene.lent_numbers(shelf)).map(drop);
    let of_points = |kind| scene(kind, &CHECKS, &[10, 11, 12, 13], refused);
    KINDS.into_iter().map(of_points).collect()
}

/// 12 alone and with each other refusal.
pub fn live_scenes(shelf: &Shelf) -> Vec<Scene> {
    let refused = |scene: &Scene, case: &Case| {
        let exact = scene.answer(case, &scene.lent_numbers(shelf));
        live::answer(&scene.call(case), exact, true).map(drop)
    };
    // 13 and 23 together leave no room in a pair
    KINDS[..3].iter().map(|&kind| scene(kind, &LIVE_CHECKS, &[12], refused)).collect()
}

/// The pairs that have one of these numbers.
fn scene(
    (has_gap, is_damaged): (bool, bool),
    checks: &[u8],
    numbers: &[u8],
    refused: impl Fn(&Scene, &Case) -> Result<(), Refusal>,
) -> Scene {
    let mut scene = setting(has_gap, is_damaged);
    for pair in pairs(checks, has_gap, is_damaged) {
        if numbers.iter().any(|number| pair.contains(number)) {
            let cases = some_cases(&scene, pair);
            cases.iter().for_each(|case| assert_refused(pair, refused(&scene, case)));
            scene.cases.extend(cases);
        }
    }
    scene
}
