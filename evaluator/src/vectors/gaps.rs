//! Points over lent gaps with an uncertainty. No load lets one in (16), but a lent slice can hold it: in the window it
//! is a gap like any other, and elsewhere it changes nothing.

use super::scene::Scene;
use super::{faces, shape};
use crate::field::{Block, NEVER_MEASURED};
use crate::live;
use crate::net::Multiplicities;
use crate::random::Random;
use crate::unit::Sizes;

/// Of gaps, by turns; the third is too large for a file.
const UNCERTAINTIES: [u16; 4] = [1, 32767, 65535, 0];

pub fn shapes() -> Vec<Multiplicities> {
    [[1, 1, 1, 1], [2, 1, 1, 1], [2, 2, 2, 1]].map(shape).to_vec()
}

pub fn scenes() -> Vec<Scene> {
    let around = shapes().into_iter().map(|v| around(v, &UNCERTAINTIES));
    std::iter::once(figure()).chain(around).collect()
}

/// The block with a gap that was worked by hand, docs/SPECIFICATION.md, 14.6, but for an uncertainty at the gap.
fn figure() -> Scene {
    let mut block = Block::constant(Sizes::new([2, 2, 2]).expect("within the limits"), 0, 5);
    (block.corrections[0], block.corrections[1]) = (100, NEVER_MEASURED);
    let mut scene = Scene::new(shape([1; 4]), block);
    scene.ask([1, 1, 1], 1);
    scene.ask([2, 1, 1], 1);
    scene
}

/// The window of the second cells is measured, and all around it are gaps, with these uncertainties by turns. Points of
/// those cells need none of them; the first point inside and the far corner do.
fn around(v: Multiplicities, uncertainties: &[u16]) -> Scene {
    let extents = v.extents();
    let sizes = Sizes::new(extents.map(|e| e + 2)).expect("at most 5 on an axis");
    let mut block = Block::random(sizes, &mut Random::new(13));
    let is_around = |j: [usize; 3]| (0..3).any(|b| j[b] == 0 || j[b] > extents[b]);
    let gaps = (0..sizes.entries()).filter(|&index| is_around(sizes.entry(index)));
    for (gap, &uncertainty) in gaps.zip(uncertainties.iter().cycle()) {
        (block.corrections[gap], block.uncertainties[gap]) = (NEVER_MEASURED, uncertainty);
    }
    let mut scene = Scene::new(v, block);
    let largest = live::largest_divisor(v.degree());
    let at_largest = [[largest / 2, largest / 3, largest / 5], [largest - 1; 3]].map(|remainder| (remainder, largest));
    for (remainder, divisor) in [([0; 3], 1), ([1, 2, 4], 5), ([4, 0, 4], 5)].into_iter().chain(at_largest) {
        scene.ask(scene.at(extents, remainder, divisor), divisor);
    }
    let first = scene.at(scene.first_cell(), [0; 3], 5);
    scene.ask(first, 5);
    scene.ask(scene.moved_far(first, faces::WAYS[6], 5), 5);
    scene
}

#[cfg(test)]
mod tests {
    use super::*;
    use crate::point::{self, Exact};
    use crate::unit::Refusal;

    fn answers(scene: &Scene) -> Vec<Exact> {
        scene.cases.iter().map(|case| point::answer(&scene.call(case))).collect()
    }

    #[test]
    fn gaps_of_the_window_alone_are_seen() {
        assert_eq!(answers(&figure()), [Err(Refusal::at(13, 1)); 2]);
        for v in shapes() {
            let answers = answers(&around(v, &UNCERTAINTIES));
            let (inside, refused) = answers.split_at(5);
            assert!(inside.iter().all(Exact::is_ok));
            assert_eq!(refused[0], Err(Refusal::at(13, 0)));
            assert!(refused[1].is_err_and(|refusal| refusal.number == 13 && refusal.place > 0));
        }
    }

    #[test]
    fn the_uncertainty_of_a_gap_changes_no_answer() {
        for v in shapes() {
            assert_eq!(answers(&around(v, &UNCERTAINTIES)), answers(&around(v, &[0])));
        }
    }
}
