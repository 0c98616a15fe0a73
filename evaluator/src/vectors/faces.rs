//! Points on the far faces of a block and next to them: docs/SPECIFICATION.md, 9.1 and 9.2.

use super::scene::Scene;
use super::shape;
use crate::field::{Block, NEVER_MEASURED};
use crate::net::Multiplicities;
use crate::point::largest_divisor;
use crate::random::Random;
use crate::unit::Sizes;

/// The axes on whose far faces a point can be: one, two at an edge, all at the corner.
pub const WAYS: [&[usize]; 7] = [&[0], &[1], &[2], &[0, 1], &[0, 2], &[1, 2], &[0, 1, 2]];

fn simple() -> Multiplicities {
    shape([1; 4])
}

fn quadratic() -> Multiplicities {
    shape([2, 1, 1, 1])
}

/// Nets, each with a divisor, and how many entries a block lacks for a window.
fn short_nets() -> [(Multiplicities, u32, usize); 3] {
    [(simple(), 4096, 1), (shape([2, 1, 2, 1]), 5, 1), (shape([1, 2, 2, 2]), 3, 2)]
}

pub fn shapes() -> Vec<Multiplicities> {
    [vec![simple(), quadratic()], short_nets().map(|(v, ..)| v).to_vec()].concat()
}

pub fn scenes() -> Vec<Scene> {
    let mut scenes = vec![every_divisor(), swapped(4), swapped(largest_divisor(quadratic().degree()))];
    scenes.extend(short_nets().into_iter().flat_map(|net| [0, 1, 2].map(|axis| short(net, axis))));
    scenes.extend(GAPS.map(with_gaps));
    scenes
}

fn block(n: [usize; 3], seed: u64) -> Block {
    Block::random(Sizes::new(n).expect("within the limits"), &mut Random::new(seed))
}

/// Each way to be on far faces. From number to number the divisors, small, any and largest, and the kinds of other
/// remainders come by turns.
pub fn ask_each_way(scene: &mut Scene, number: usize, random: &mut Random) {
    let largest = largest_divisor(scene.net.degree());
    for (way, axes) in WAYS.into_iter().enumerate() {
        let any = random.between(1, largest as usize) as u32;
        let divisor = [random.between(1, 4) as u32, any, largest][(number + way) % 3];
        let [a, b, c] = [0; 3].map(|_: u32| random.below(divisor.into()) as u32);
        let remainder = [[0; 3], [divisor - 1; 3], [a; 3], [a, 0, b], [a, b, c]][(number + way) % 5];
        let point = scene.at(scene.any_cell(random), remainder, divisor);
        scene.ask(scene.moved_far(point, axes, divisor), divisor);
    }
}

/// There is only one net of degree 1.
fn every_divisor() -> Scene {
    let mut scene = Scene::new(simple(), block([3, 4, 2], 5));
    let mut random = Random::new(6);
    for number in 0..3 {
        ask_each_way(&mut scene, number, &mut random);
    }
    scene
}

/// On one axis the far face of another, a little less and a little more; the other coordinates are inside or far too.
fn swapped(divisor: u32) -> Scene {
    let mut scene = Scene::new(quadratic(), block([4, 3, 5], 7));
    let inside = scene.at(scene.first_cell(), [1, 2, 1], divisor);
    let far = scene.moved_far(inside, WAYS[6], divisor);
    for axis in 0..3 {
        for coordinate in [far[(axis + 1) % 3], far[(axis + 2) % 3], far[axis] - 1, far[axis] + 1] {
            for mut point in [inside, far] {
                point[axis] = coordinate;
                scene.ask(point, divisor);
            }
        }
    }
    scene.ask([far[1], far[2], far[0]], divisor);
    scene.ask([far[2], far[0], far[1]], divisor);
    scene
}

/// On one axis the block has too few entries for a window: nothing is inside, the far faces neither.
fn short((v, divisor, missing): (Multiplicities, u32, usize), axis: usize) -> Scene {
    let mut n = v.extents();
    n[axis] -= missing;
    let mut scene = Scene::new(v, block(n, 8));
    let inside = scene.at(scene.first_cell(), [0; 3], divisor);
    let far = scene.moved_far(inside, &[axis], divisor);
    let mut points = [far, far, far, inside.map(|c| c + 1), scene.moved_far(inside, WAYS[6], divisor)];
    points[1][axis] -= 1;
    points[2][axis] += 1;
    for point in points {
        scene.ask(point, divisor);
    }
    scene
}

/// In a block of 5, 4, 3, where the window of the last cells begins at (2, 2, 1): its first entry, which counts nothing
/// on far faces; an entry just before it on each axis; its last entry; some of its entries, with a lower one before it.
const GAPS: [&[[usize; 3]]; 4] =
    [&[[2, 2, 1]], &[[1, 2, 1], [2, 1, 1], [2, 2, 0]], &[[4, 3, 2]], &[[4, 1, 0], [2, 3, 1], [4, 2, 1], [3, 3, 2]]];

/// Each way to be on far faces, elsewhere in the last and in the first cells.
fn with_gaps(gaps: &[[usize; 3]]) -> Scene {
    let divisor = 4;
    let mut scene = Scene::new(quadratic(), block([5, 4, 3], 9));
    for [j1, j2, j3] in gaps {
        scene.block.corrections[j1 + 5 * (j2 + 4 * j3)] = NEVER_MEASURED;
    }
    for (cell, ways) in [(scene.last_cell(), &WAYS[..]), (scene.first_cell(), &WAYS[..6])] {
        for axes in ways {
            let point = scene.at(cell, [1, 3, 2], divisor);
            scene.ask(scene.moved_far(point, axes, divisor), divisor);
        }
    }
    scene
}

#[cfg(test)]
mod tests {
    use super::*;
    use crate::point;
    use crate::unit::Refusal;

    /// The refusals of a scene's first cases, as many as there are ways.
    fn refusals(scene: &Scene) -> Vec<Option<Refusal>> {
        scene.cases.iter().take(WAYS.len()).map(|case| point::answer(&scene.call(case)).err()).collect()
    }

    #[test]
    fn a_gap_of_the_last_window_is_seen_on_every_far_face() {
        let lowest = [Some(Refusal::at(13, 32)), None, Some(Refusal::at(13, 59)), Some(Refusal::at(13, 34))];
        for (gaps, refusal) in GAPS.into_iter().zip(lowest) {
            assert_eq!(refusals(&with_gaps(gaps)), [refusal; 7]);
        }
    }

    #[test]
    fn without_a_window_every_far_face_meets_12() {
        for net in short_nets() {
            for axis in 0..3 {
                assert_eq!(refusals(&short(net, axis)), [Some(Refusal::from(12)); 5]);
            }
        }
    }
}
