//! Points over lent nets that are not the defined one: 23, and answers from the lent numbers.

use super::scene::Scene;
use super::{Shelf, shape, window};
use crate::field::Block;
use crate::net::Multiplicities;
use crate::point;
use crate::random::Random;

const DIVISOR: u32 = 4;
/// On far faces, where three remainders and the divisor are enough for each order and each tie.
const FAR_DIVISOR: u32 = 3;

fn simple() -> Multiplicities {
    shape([1; 4])
}

fn quadratic() -> Multiplicities {
    shape([2, 1, 1, 1])
}

fn compensated_shapes() -> Vec<Multiplicities> {
    [[2, 1, 1, 1], [2, 2, 1, 1], [1, 2, 2, 2], [3, 2, 2, 2]].map(shape).to_vec()
}

pub fn shapes() -> Vec<Multiplicities> {
    [vec![simple(), shape([1, 1, 2, 1])], compensated_shapes()].concat()
}

pub fn scenes(shelf: &Shelf) -> Vec<Scene> {
    let mut scenes = vec![wrapped(), no_share(shelf), other_net()];
    scenes.extend([[2, 1, 0], [0, 1, 2], [1, 2, 0]].map(|place| one_number(place, shelf)));
    scenes.push(idle_on_far_faces(shelf));
    scenes.extend(compensated_shapes().into_iter().flat_map(|v| [corner(v, 0), corner(v, v.places() - 1)]));
    scenes.extend(compensated_shapes().into_iter().map(|v| compensated(v, shelf)));
    scenes.extend([0, 1, 2].map(|axis| compensated_on_far_face(axis, shelf)));
    scenes
}

/// Of each kind one or a few, at some points.
pub fn live_scenes(shelf: &Shelf) -> Vec<Scene> {
    let mut scenes = vec![wrapped(), other_net(), corner(quadratic(), 0)];
    scenes.extend(compensated_shapes().into_iter().map(|v| {
        let mut scene = inner_exchanged(v, shelf);
        ask_some(&mut scene);
        assert_answered(&scene, shelf);
        scene
    }));
    scenes.push(compensated_on_far_face(0, shelf));
    scenes
}

/// The net's window is the whole block.
fn tight(v: Multiplicities) -> Scene {
    Scene::new(v, Block::random(window(v), &mut Random::new(3)))
}

/// Every point of the cell whose window is the block, at divisor 4: remainders of each order and with each tie.
fn ask_cell(scene: &mut Scene) {
    let corner = scene.first_cell();
    for index in 0..DIVISOR.pow(3) {
        let remainder = [index % DIVISOR, index / DIVISOR % DIVISOR, index / DIVISOR / DIVISOR];
        scene.ask(scene.at(corner, remainder, DIVISOR), DIVISOR);
    }
}

/// The points of the same cell that are on far faces, of these axes at least.
fn ask_far(scene: &mut Scene, axes: &[usize]) {
    let corner = scene.first_cell();
    let each = || 0..=FAR_DIVISOR;
    for remainder in each().flat_map(|z| each().flat_map(move |y| each().map(move |x| [x, y, z]))) {
        if remainder.contains(&FAR_DIVISOR) && axes.iter().all(|&b| remainder[b] == FAR_DIVISOR) {
            scene.ask(scene.at(corner, remainder, FAR_DIVISOR), FAR_DIVISOR);
        }
    }
}

fn ask_some(scene: &mut Scene) {
    let corner = scene.first_cell();
    let near = [[0, 0, 0], [3, 3, 3], [3, 2, 1], [1, 2, 3], [2, 0, 2], [0, 1, 0]];
    for remainder in near.into_iter().chain([[4, 2, 1], [0, 4, 4], [4, 4, 4]]) {
        scene.ask(scene.at(corner, remainder, DIVISOR), DIVISOR);
    }
}

/// One number is one too large: 23 exactly where the axis order of the point makes its place a local one.
fn one_number(place: [usize; 3], shelf: &Shelf) -> Scene {
    let mut scene = tight(quadratic());
    let index = scene.net.index(place);
    scene.changes.push((index, shelf.net(scene.net).at(place) + 1));
    ask_cell(&mut scene);
    ask_far(&mut scene, &[]);
    scene
}

/// One number is one too large, at a local place that counts nothing on far faces: b0 is 1 there, and L0 is 0.
fn idle_on_far_faces(shelf: &Shelf) -> Scene {
    let mut scene = tight(quadratic());
    let place = [1, 1, 0];
    scene.changes.push((scene.net.index(place), shelf.net(scene.net).at(place) + 1));
    ask_far(&mut scene, &[]);
    scene
}

/// The shares add up to 2^32 + 1 at each local place, which is m! = 1 in 32 bits.
fn wrapped() -> Scene {
    let mut scene = tight(simple());
    for (place, number) in [([1, 1, 0], 2), ([1, 1, 1], u32::MAX), ([1, 1, 2], 2)] {
        scene.changes.push((scene.net.index(place), number));
    }
    ask_some(&mut scene);
    scene
}

fn no_share(shelf: &Shelf) -> Scene {
    let mut scene = tight(quadratic());
    let zeros = shelf.net(scene.net).listing().map(|(place, _)| (scene.net.index(place), 0));
    scene.changes.extend(zeros);
    ask_some(&mut scene);
    scene
}

/// The lent net is that of another shape with a box of as many places.
fn other_net() -> Scene {
    let other = shape([1, 1, 2, 1]);
    let mut scene = tight(quadratic());
    ask_some(&mut scene);
    assert_eq!(scene.net.places(), other.places());
    scene.net = other;
    scene
}

/// The lowest or the highest place of the box is the share of an entry at a local place of every point.
fn corner(v: Multiplicities, index: usize) -> Scene {
    let mut scene = tight(v);
    scene.changes.push((index, 1));
    ask_some(&mut scene);
    scene
}

/// Two shares at one local place are changed against each other: no defined net, and no 23.
fn compensated(v: Multiplicities, shelf: &Shelf) -> Scene {
    let mut scene = inner_exchanged(v, shelf);
    ask_cell(&mut scene);
    assert_answered(&scene, shelf);
    scene
}

/// At places inside the cells: one with a residue 0 would be a local place of two of them.
pub fn inner_exchanged(v: Multiplicities, shelf: &Shelf) -> Scene {
    exchanged(v, |place| place.iter().all(|c| c % v.degree() != 0), shelf)
}

/// The same with shares that count on the far face of an axis: what they lose and gain at one of the two local places
/// they lose and gain at the other, which is across the cell.
fn compensated_on_far_face(axis: usize, shelf: &Shelf) -> Scene {
    let v = shape([1, 2, 2, 2]);
    let on_face = |place: [usize; 3]| (0..3).all(|b| place[b].is_multiple_of(v.degree()) == (b == axis));
    let mut scene = exchanged(v, on_face, shelf);
    ask_far(&mut scene, &[axis]);
    assert_answered(&scene, shelf);
    let lent_numbers = scene.lent_numbers(shelf);
    let differs = |case| scene.answer(case, &lent_numbers) != point::answer(&scene.call(case));
    assert!(scene.cases.iter().any(differs), "the exchange counts");
    scene
}

/// Of the net's numbers at such places one is one less, and another, at the same remainders by the degree, one more.
fn exchanged(v: Multiplicities, is_such: impl Fn([usize; 3]) -> bool, shelf: &Shelf) -> Scene {
    let mut scene = tight(v);
    let residues = |place: [usize; 3]| place.map(|c| c % v.degree());
    let such: Vec<_> = shelf.net(v).listing().filter(|&(place, _)| is_such(place)).collect();
    let &(from, taken) = such.first().expect("a net has inner numbers");
    let &(to, given) = such.iter().rfind(|&&(place, _)| residues(place) == residues(from)).expect("itself at least");
    assert_ne!(from, to);
    scene.changes.extend([(v.index(from), taken - 1), (v.index(to), given + 1)]);
    scene
}

fn assert_answered(scene: &Scene, shelf: &Shelf) {
    let lent_numbers = scene.lent_numbers(shelf);
    assert!(scene.cases.iter().all(|case| scene.answer(case, &lent_numbers).is_ok()), "the sums are still m!");
}
