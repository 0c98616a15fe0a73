//! The largest divisors of each degree and those past them, with the largest numbers.

use super::super::points::some_of;
use super::super::scene::Scene;
use super::super::{faces, shape, window};
use crate::field::Block;
use crate::live;
use crate::net::Multiplicities;
use crate::point;
use crate::random::Random;

const NETS_OF_A_DEGREE: usize = 3;
/// In the window of a net here, so that the stored blocks are small.
const MOST_ENTRIES: usize = 100;

fn spread() -> Vec<Multiplicities> {
    let is_small = |v: &Multiplicities| v.extents().iter().product::<usize>() <= MOST_ENTRIES;
    let small = |degree| Multiplicities::of_degree(degree).into_iter().filter(is_small).collect::<Vec<_>>();
    (1..=9).flat_map(|degree| some_of(&small(degree), NETS_OF_A_DEGREE)).collect()
}

/// Of degree 9, which has the largest factorial.
fn high() -> Vec<Multiplicities> {
    [[9, 1, 1, 1], [3, 3, 3, 3]].map(shape).to_vec()
}

pub fn shapes() -> Vec<Multiplicities> {
    [spread(), high()].concat()
}

pub fn scenes() -> Vec<Scene> {
    let mut random = Random::new(10);
    let mut scenes: Vec<Scene> = spread().into_iter().map(|v| at_limits(v, &mut random)).collect();
    for v in high() {
        scenes.extend([32767, -32767].map(|correction| at_vertices(v, correction)));
    }
    scenes
}

/// At the largest divisor inside, on a far face and outside; at one more, and at one more than the exact
/// call's largest, inside and outside.
fn at_limits(v: Multiplicities, random: &mut Random) -> Scene {
    let mut block = Block::random(window(v), random);
    block.uncertainties.fill(65535);
    let mut scene = Scene::new(v, block);
    let (largest, exact) = (live::largest_divisor(v.degree()), point::largest_divisor(v.degree()));
    let inside = |d: u32| scene.at(scene.first_cell(), [d / 2, d / 3, d / 5], d);
    let outside = |d: u32| scene.at(scene.first_cell(), [0; 3], d).map(|c| c - 1);
    let far = scene.moved_far(inside(largest), faces::WAYS[random.between(0, 6)], largest);
    let within = [inside(largest), far, outside(largest)].map(|point| (point, largest));
    let past = [largest + 1, exact + 1].map(|d| [(inside(d), d), (outside(d), d)]);
    for (point, divisor) in within.into_iter().chain(past.into_iter().flatten()) {
        scene.ask(point, divisor);
    }
    scene
}

/// The vertices of the last cell at the largest divisor: each has one weight, which is the divisor.
fn at_vertices(v: Multiplicities, correction: i16) -> Scene {
    let mut scene = Scene::new(v, Block::constant(window(v), correction, 65535));
    let divisor = live::largest_divisor(v.degree());
    let low = scene.at(scene.last_cell(), [0; 3], divisor);
    for axes in [&[][..]].into_iter().chain(faces::WAYS) {
        scene.ask(scene.moved_far(low, axes, divisor), divisor);
    }
    scene
}
