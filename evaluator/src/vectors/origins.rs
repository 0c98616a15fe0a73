//! Points of blocks that begin elsewhere than at 0: docs/SPECIFICATION.md, 9.1 and 9.2. The unit alone has the origin,
//! so one lent block serves all of them.

use super::scene::Scene;
use super::{faces, shape};
use crate::field::Block;
use crate::net::Multiplicities;
use crate::point::largest_divisor;
use crate::random::Random;
use crate::unit::{Origin, Sizes};

/// The ends of the numbers that an origin can be, and those next to 0.
const NUMBERS: [i16; 4] = [-32768, -1, 1, 32767];
const MIXED: [Origin; 6] = [[-32768; 3], [32767; 3], [-1; 3], [-32768, 32767, -1], [1, -1, 32767], [-1, -32768, 1]];

/// How many points are asked of an origin, and how many of them are inside, which come first.
pub const POINTS: usize = 13;
pub const POINTS_INSIDE: usize = 4;

/// The largest divisor, at which an origin is furthest from 0; it is allowed at degree 2, in a live call too.
const LARGEST: u32 = 4096;
/// By turns; seven, so that they go in step with neither the axes nor the numbers above.
const OTHERS: [u32; 7] = [1, 2, 4095, 3, 1000, 10, 64];

fn net() -> Multiplicities {
    shape([2, 1, 1, 1])
}

pub fn shapes() -> Vec<Multiplicities> {
    vec![net()]
}

/// Origins, each with an axis to look at: 0, such as are not 0 on one axis, and mixed ones.
pub fn origins() -> Vec<(Origin, usize)> {
    let on = |axis: usize, number: i16| [0, 1, 2].map(|b| if b == axis { number } else { 0 });
    let one = (0..3).flat_map(|axis| NUMBERS.map(|number| (on(axis, number), axis)));
    let mixed = MIXED.into_iter().enumerate().map(|(number, origin)| (origin, number % 3));
    std::iter::once(([0; 3], 0)).chain(one).chain(mixed).collect()
}

/// The divisors of each origin: the largest, and one of the others.
fn divisors(number: usize) -> [u32; 2] {
    [LARGEST, OTHERS[number % OTHERS.len()]]
}

/// A scene without cases.
fn setting() -> Scene {
    let sizes = Sizes::new([4, 3, 5]).expect("within the limits");
    Scene::new(net(), Block::random(sizes, &mut Random::new(21)))
}

/// All points of each origin at each of its divisors.
pub fn scene() -> Scene {
    let mut scene = setting();
    for (number, (origin, axis)) in origins().into_iter().enumerate() {
        scene.block.origin = origin;
        divisors(number).into_iter().for_each(|divisor| ask_all(&mut scene, axis, divisor));
    }
    scene
}

/// Which of the points inside is asked where one is enough: of each divisor another one, and not in step with the
/// numbers of the origins.
pub fn turn(number: usize, of_divisor: usize) -> usize {
    (number + number / NUMBERS.len() + of_divisor) % POINTS_INSIDE
}

/// By turns one of the points inside and one of those outside.
pub fn live_scene() -> Scene {
    let mut scene = setting();
    for (number, (origin, axis)) in origins().into_iter().enumerate() {
        scene.block.origin = origin;
        for (of_divisor, divisor) in divisors(number).into_iter().enumerate() {
            let outer = (2 * number + of_divisor) % (POINTS - POINTS_INSIDE);
            scene.ask(inside(&scene, axis, divisor)[turn(number, of_divisor)], divisor);
            scene.ask(outside(&scene, axis, divisor)[outer], divisor);
        }
    }
    scene
}

fn ask_all(scene: &mut Scene, axis: usize, divisor: u32) {
    let all = inside(scene, axis, divisor).into_iter().chain(outside(scene, axis, divisor));
    for point in all {
        scene.ask(point, divisor);
    }
}

/// The point with another coordinate on an axis.
fn with(point: [i32; 3], axis: usize, coordinate: i32) -> [i32; 3] {
    [0, 1, 2].map(|b| if b == axis { coordinate } else { point[b] })
}

fn within_last_cell(scene: &Scene, divisor: u32) -> [i32; 3] {
    scene.at(scene.last_cell(), [divisor / 2, divisor / 3, divisor / 5], divisor)
}

/// Within a cell, at the first corner, on the far face of the axis, and at the far corner.
fn inside(scene: &Scene, axis: usize, divisor: u32) -> [[i32; 3]; POINTS_INSIDE] {
    let point = within_last_cell(scene, divisor);
    let far = |axes| scene.moved_far(point, axes, divisor);
    [point, scene.at(scene.first_cell(), [0; 3], divisor), far(&[axis]), far(faces::WAYS[6])]
}

/// On the axis one before the first corner, one past the far face, one before the origin, at the origin, at both ends
/// of the numbers that a coordinate can be, as far before the origin as a point inside is past it, and in cells that
/// have the low 8 or 16 bits of one inside.
fn outside(scene: &Scene, axis: usize, divisor: u32) -> [[i32; 3]; POINTS - POINTS_INSIDE] {
    let point = within_last_cell(scene, divisor);
    let [start, first, end] =
        [[0; 3], scene.first_cell(), scene.block.sizes.axes()].map(|entries| scene.at(entries, [0; 3], divisor)[axis]);
    let mirrored = 2 * start - point[axis];
    let further = |cells: i32| point[axis] + cells * divisor as i32;
    [first - 1, end + 1, start - 1, start, i32::MIN, i32::MAX, mirrored, further(1 << 8), further(1 << 16)]
        .map(|coordinate| with(point, axis, coordinate))
}

/// The scene's block elsewhere: by turns at one of the origins above and at any, any point, one on far faces at the
/// largest divisor and one just before the cells inside.
pub fn ask_moved(scene: &mut Scene, number: usize, random: &mut Random) {
    let (known, axis) = origins()[number / 2 % origins().len()];
    let any = [0; 3].map(|_: i16| random.below(1 << 16) as u16 as i16);
    let before = std::mem::replace(&mut scene.block.origin, [any, known][number % 2]);
    let largest = largest_divisor(scene.net.degree());
    let divisor = random.between(1, largest as usize) as u32;
    let remainder = [0; 3].map(|_: u32| random.below(divisor.into()) as u32);
    scene.ask(scene.at(scene.any_cell(random), remainder, divisor), divisor);
    let point = scene.at(scene.any_cell(random), [largest / 2, largest / 5, largest / 3], largest);
    scene.ask(scene.moved_far(point, faces::WAYS[number % faces::WAYS.len()], largest), largest);
    let mut below = scene.at(scene.first_cell(), [0; 3], divisor);
    below[axis] -= 1;
    scene.ask(below, divisor);
    scene.block.origin = before;
}

#[cfg(test)]
mod tests {
    use super::super::scene::Case;
    use super::*;
    use crate::point::{self, Exact};
    use crate::unit::Refusal;
    use std::collections::BTreeSet;

    fn answers(scene: &Scene) -> Vec<Exact> {
        scene.cases.iter().map(|case| point::answer(&scene.call(case))).collect()
    }

    #[test]
    fn what_is_inside_and_what_is_not() {
        for answers in answers(&scene()).chunks(POINTS) {
            let (inside, outside) = answers.split_at(POINTS_INSIDE);
            assert!(inside.iter().all(Exact::is_ok));
            assert_eq!(outside, [Err(Refusal::from(12)); POINTS - POINTS_INSIDE]);
        }
    }

    /// Each number is asked on each axis at the largest divisor with both ends of 32 bits, and at several others.
    #[test]
    fn origins_and_divisors_do_not_go_in_step() {
        let cases = scene().cases;
        for number in NUMBERS {
            for (axis, end) in (0..3).flat_map(|axis| [(axis, i32::MIN), (axis, i32::MAX)]) {
                let is_such = |case: &Case| case.unit.o[axis] == number && case.coordinates[axis] == end;
                assert!(cases.iter().any(|case| is_such(case) && case.divisor == LARGEST));
            }
            let such = cases.iter().filter(|case| case.unit.o.contains(&number));
            assert!(such.map(|case| case.divisor).collect::<BTreeSet<u32>>().len() > 3);
        }
    }

    #[test]
    fn an_origin_moves_the_points_and_no_answer() {
        for divisor in OTHERS.into_iter().chain([LARGEST]) {
            let of_origin = |origin: Origin, axis: usize| {
                let mut scene = setting();
                scene.block.origin = origin;
                ask_all(&mut scene, axis, divisor);
                answers(&scene)
            };
            for (origin, axis) in origins() {
                assert_eq!(of_origin(origin, axis), of_origin([0; 3], axis));
            }
        }
    }
}
