//! Points over defined nets of every degree: the figures worked by hand, any points, and the largest numbers.

use super::scene::{Case, Scene, header};
use super::{Shelf, faces, origins, shape};
use crate::field::{Block, NEVER_MEASURED};
use crate::net::Multiplicities;
use crate::point::largest_divisor;
use crate::random::Random;
use crate::unit::{Sizes, told};

const FORMS: &str = "\
# point UNIT NET C U X Y Z D answer N U DENOMINATOR
# point UNIT NET C U X Y Z D refused NUMBER PLACE
";

const NETS_OF_A_DEGREE: usize = 6;

/// At most so many of these, from the first to the last.
pub fn some_of(all: &[Multiplicities], most: usize) -> Vec<Multiplicities> {
    let count = all.len().min(most);
    (0..count).map(|i| all[i * (all.len() - 1) / (count - 1).max(1)]).collect()
}

/// Nets of each degree.
fn spread() -> Vec<Multiplicities> {
    (1..=9).flat_map(|degree| some_of(&Multiplicities::of_degree(degree), NETS_OF_A_DEGREE)).collect()
}

/// Nets at whose largest divisors the numerators are greatest, and the longest and the fullest box.
fn large() -> Vec<Multiplicities> {
    [[1, 1, 1, 1], [2, 2, 2, 1], [2, 2, 2, 2], [2, 3, 3, 3], [1, 1, 1, 9], [3, 3, 3, 3]].map(shape).to_vec()
}

pub fn shapes() -> Vec<Multiplicities> {
    [spread(), large()].concat()
}

/// The file of these scenes.
pub fn text(scenes: &[Scene], shelf: &Shelf) -> String {
    let line = |_, case: &Case, exact| format!("point {case} {}\n", told(&exact));
    let texts = scenes.iter().map(|scene| scene.text(shelf, line));
    std::iter::once(header("Point calls", FORMS, "")).chain(texts).collect()
}

pub fn scenes() -> Vec<Scene> {
    let (mut random, mut random_far, mut random_moved) = (Random::new(1), Random::new(4), Random::new(22));
    let mut scenes = figures();
    for (number, v) in spread().into_iter().enumerate() {
        let mut scene = any_scene(v, number, &mut random);
        faces::ask_each_way(&mut scene, number, &mut random_far);
        origins::ask_moved(&mut scene, number, &mut random_moved);
        scenes.push(scene);
    }
    scenes.extend(large().into_iter().flat_map(|v| large_scenes(v, &mut random)));
    scenes
}

/// The points worked by hand: docs/SPECIFICATION.md, 14.6.
pub fn figures() -> Vec<Scene> {
    let mut block = Block::constant(Sizes::new([2, 2, 2]).expect("within the limits"), 0, 5);
    (block.corrections[0], block.corrections[1]) = (100, -40);
    let mut measured = Scene::new(shape([1; 4]), block.clone());
    for (coordinates, divisor) in [([1, 1, 1], 1), ([3, 2, 2], 2), ([0, 1, 1], 1), ([2, 1, 1], 1), ([3, 1, 1], 1)] {
        measured.ask(coordinates, divisor);
    }
    (block.corrections[1], block.uncertainties[1]) = (NEVER_MEASURED, 0);
    let mut with_gap = Scene::new(shape([1; 4]), block);
    with_gap.ask([1, 1, 1], 1);
    vec![measured, with_gap]
}

/// Sizes that hold a window or a little more.
fn sizes(v: Multiplicities, least_more: usize, random: &mut Random) -> Sizes {
    let n = v.extents().map(|e| e + random.between(least_more, 2));
    Sizes::new(n).expect("at most 12 on an axis")
}

/// A random block, in every second scene with gaps in two corners, in every third in slices longer than it needs.
fn any_scene(v: Multiplicities, number: usize, random: &mut Random) -> Scene {
    let has_gaps = number % 2 == 1;
    let mut block = Block::random(sizes(v, has_gaps as usize, random), random);
    if has_gaps {
        let last = block.sizes.entries() - 1;
        block.corrections[0] = NEVER_MEASURED;
        block.corrections[last] = NEVER_MEASURED;
    }
    if number.is_multiple_of(3) {
        block.corrections.extend([NEVER_MEASURED; 3]);
        block.uncertainties.extend([65535; 2]);
    }
    let mut scene = Scene::new(v, block);
    ask_inside(&mut scene, random);
    ask_ends(&mut scene);
    scene
}

/// The extreme vertices, and points with each kind of equal remainders at small, middle and largest divisors.
fn ask_inside(scene: &mut Scene, random: &mut Random) {
    let largest = largest_divisor(scene.net.degree());
    scene.ask(scene.at(scene.first_cell(), [0; 3], 1), 1);
    scene.ask(scene.at(scene.last_cell(), [0; 3], 1), 1);
    scene.ask(scene.at(scene.last_cell(), [largest - 1; 3], largest), largest);
    for kind in 0..8 {
        let divisor = if kind < 2 { largest } else { random.between(2, largest as usize) as u32 };
        let [a, b, c] = [0; 3].map(|_: u32| random.below(divisor.into()) as u32);
        let remainder = match kind {
            2 => [a, a, a],
            3 => [a, a, b],
            4 => [a, b, b],
            5 => [a, b, a],
            6 => [0, a, b],
            _ => [a, b, c],
        };
        let cell = scene.any_cell(random);
        scene.ask(scene.at(cell, remainder, divisor), divisor);
    }
}

/// Just below the low end of an axis, on its far face and just past it, at both ends of what a coordinate can be, and a
/// divisor just too large.
fn ask_ends(scene: &mut Scene) {
    let largest = largest_divisor(scene.net.degree());
    let axis = scene.net.extents().iter().sum::<usize>() % 3;
    let inside = scene.at(scene.first_cell(), [0; 3], largest);
    let far = scene.moved_far(inside, &[axis], largest);
    let with = |coordinate: i32| [0, 1, 2].map(|b| if b == axis { coordinate } else { inside[b] });
    for point in [inside[axis] - 1, far[axis], far[axis] + 1, i32::MAX, i32::MIN].map(with) {
        scene.ask(point, largest);
    }
    scene.ask(inside, largest + 1);
}

/// Constant blocks of the largest numbers that the slices can hold, and of the least correction.
fn large_scenes(v: Multiplicities, random: &mut Random) -> Vec<Scene> {
    let sizes = sizes(v, 0, random);
    let largest = largest_divisor(v.degree());
    let numbers = [(32767, 65535), (-32767, 0)];
    let scene = |(correction, uncertainty)| {
        let mut scene = Scene::new(v, Block::constant(sizes, correction, uncertainty));
        let remainders = [[0; 3], [largest - 1; 3], [largest / 2, largest / 3, largest / 5]];
        for (remainder, axes) in remainders.into_iter().zip([&[0, 1, 2][..], &[1, 2], &[0]]) {
            let point = scene.at(scene.any_cell(random), remainder, largest);
            scene.ask(point, largest);
            scene.ask(scene.moved_far(point, axes, largest), largest);
        }
        scene
    };
    numbers.into_iter().map(scene).collect()
}
