//! Points in each tetrahedron, with each tie and on far faces: each is placed, and its placing valued.

use super::super::damage::inner_exchanged;
use super::super::scene::Scene;
use super::super::{Shelf, faces, points, shape, window};
use super::Placings;
use crate::field::Block;
use crate::live;
use crate::net::Multiplicities;
use crate::point::largest_divisor;
use crate::random::Random;
use crate::unit::Sizes;

/// In quarters of the divisor: the six orders of the axes, then ties.
const REMAINDERS: [[u32; 3]; 12] = [
    [3, 2, 1],
    [3, 1, 2],
    [2, 3, 1],
    [1, 3, 2],
    [2, 1, 3],
    [1, 2, 3],
    [2, 2, 2],
    [3, 3, 1],
    [1, 3, 3],
    [3, 1, 3],
    [0, 0, 0],
    [0, 2, 0],
];

fn quadratic() -> Multiplicities {
    shape([2, 1, 1, 1])
}

/// Of lent numbers that are no defined net's.
fn exchanged() -> Multiplicities {
    shape([1, 2, 2, 2])
}

/// Of degree 9.
fn high() -> Multiplicities {
    shape([3, 3, 3, 3])
}

pub fn shapes() -> Vec<Multiplicities> {
    vec![shape([1; 4]), quadratic(), exchanged(), high()]
}

pub fn scenes(shelf: &Shelf) -> Vec<Placings> {
    let mut scenes = points::figures();
    scenes.push(every_way());
    let tight = Scene::new(high(), Block::random(window(high()), &mut Random::new(15)));
    for mut scene in [inner_exchanged(exchanged(), shelf), tight] {
        ask_by_turns(&mut scene);
        scenes.push(scene);
    }
    scenes.into_iter().map(Placings::of_points).collect()
}

/// Each kind of remainders in the first cells and by turns in the last ones, then each way to be on far faces.
fn every_way() -> Scene {
    let divisor = 4;
    let sizes = Sizes::new([4, 3, 5]).expect("within the limits");
    let mut scene = Scene::new(quadratic(), Block::random(sizes, &mut Random::new(14)));
    let cells = [scene.first_cell(), scene.last_cell()];
    for (number, remainder) in REMAINDERS.into_iter().enumerate() {
        scene.ask(scene.at(cells[number % 2], remainder, divisor), divisor);
    }
    for axes in faces::WAYS {
        let point = scene.at(scene.first_cell(), [1, 3, 2], divisor);
        scene.ask(scene.moved_far(point, axes, divisor), divisor);
    }
    scene
}

/// The largest divisor of the live call, of the exact one, and that which 15 refuses first, by turns with the kinds of
/// remainders; and vertices on far faces over 1.
fn ask_by_turns(scene: &mut Scene) {
    let (largest, live_largest) = (largest_divisor(scene.net.degree()), live::largest_divisor(scene.net.degree()));
    for (number, remainder) in REMAINDERS.into_iter().enumerate() {
        let divisor = [live_largest, largest, live_largest + 1][number % 3];
        let remainder = remainder.map(|quarters| quarters * divisor / 4);
        scene.ask(scene.at(scene.last_cell(), remainder, divisor), divisor);
    }
    let low = scene.at(scene.last_cell(), [0; 3], 1);
    for axes in [faces::WAYS[1], faces::WAYS[4], faces::WAYS[6]] {
        scene.ask(scene.moved_far(low, axes, 1), 1);
    }
}
