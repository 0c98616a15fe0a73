//! Numbers that are 0, and terms that are 0 with a negative factor, where a float could be a negative 0.

use super::super::scene::Scene;
use super::super::{Shelf, faces, shape, window};
use crate::field::Block;
use crate::net::Multiplicities;
use crate::point;
use crate::random::Random;

const DIVISOR: u32 = 4;

fn nets() -> [Multiplicities; 4] {
    [[1, 1, 1, 1], [2, 1, 1, 1], [1, 1, 2, 2], [2, 2, 1, 1]].map(shape)
}

pub fn shapes() -> Vec<Multiplicities> {
    nets().to_vec()
}

pub fn scenes(shelf: &Shelf) -> Vec<Scene> {
    let numbers = [(0, 0), (0, 65535), (-1, 0)];
    let mut scenes: Vec<Scene> = nets().into_iter().map(negative).collect();
    scenes.extend(nets().into_iter().map(|v| zero_at_vertex(v, shelf)));
    scenes.extend(nets().into_iter().map(cancelled));
    scenes.extend(numbers.map(|(correction, uncertainty)| constant(correction, uncertainty)));
    scenes
}

/// Points whose weights are 0 in each way: at the low vertex, on edges and faces, within a tetrahedron, and on
/// far faces, where the other vertices are.
fn ask_each_way(scene: &mut Scene) {
    let near = [[0, 0, 0], [2, 0, 0], [0, 2, 2], [3, 3, 3], [1, 3, 0], [2, 2, 1], [1, 2, 3]];
    let point = |remainder| scene.at(scene.last_cell(), remainder, DIVISOR);
    let far = faces::WAYS.map(|axes| scene.moved_far(point([0; 3]), axes, DIVISOR));
    let inner_far = scene.moved_far(point([0, 1, 2]), &[0], DIVISOR);
    for point in near.map(point).into_iter().chain(far).chain([inner_far]) {
        scene.ask(point, DIVISOR);
    }
}

/// All blended numbers are negative.
fn negative(v: Multiplicities) -> Scene {
    let mut block = Block::random(window(v), &mut Random::new(11));
    for correction in &mut block.corrections {
        *correction = -correction.abs().max(1);
    }
    let mut scene = Scene::new(v, block);
    ask_each_way(&mut scene);
    scene
}

/// The entries that have a share at the low vertex are 0, the others negative: N is 0 there, and blended
/// numbers are negative where weights are 0.
fn zero_at_vertex(v: Multiplicities, shelf: &Shelf) -> Scene {
    let sizes = window(v);
    let mut block = Block::constant(sizes, -7, 0);
    let last = sizes.axes().map(|n| n - 1);
    for (index, correction) in block.corrections.iter_mut().enumerate() {
        let j = sizes.entry(index);
        if shelf.net(v).at([0, 1, 2].map(|b| v.degree() * (last[b] - j[b]))) != 0 {
            *correction = 0;
        }
    }
    let mut scene = Scene::new(v, block);
    ask_each_way(&mut scene);
    assert_zero(&scene, 0);
    scene
}

/// An entry and the one across the window's middle are each other's negative: at the middle N is 0.
fn cancelled(v: Multiplicities) -> Scene {
    let mut block = Block::random(window(v), &mut Random::new(12));
    let last = block.corrections.len() - 1;
    for index in 0..=last / 2 {
        block.corrections[last - index] = if index == last - index { 0 } else { -block.corrections[index] };
    }
    let mut scene = Scene::new(v, block);
    for divisor in [2, 4, 22] {
        scene.ask(scene.at(scene.last_cell(), [divisor / 2; 3], divisor), divisor);
    }
    assert_zero(&scene, 0);
    scene
}

/// The same numbers throughout, some of them 0.
fn constant(correction: i16, uncertainty: u16) -> Scene {
    let v = shape([2, 1, 1, 1]);
    let mut scene = Scene::new(v, Block::constant(window(v), correction, uncertainty));
    ask_each_way(&mut scene);
    scene
}

fn assert_zero(scene: &Scene, number: usize) {
    let exact = point::answer(&scene.call(&scene.cases[number])).expect("a sound call");
    assert_eq!(exact.numerator, 0);
}
