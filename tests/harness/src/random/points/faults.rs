//! Point calls that the checks refuse, and calls with any numbers.

use super::super::{break_multiplicities, break_sizes, pick, shape, shorten, too_short, unit};
use super::Asked;
use super::case::Case;
use crate::shelf::Shelf;
use evaluator::field::NEVER_MEASURED;
use evaluator::interpolation::quadruples;
use evaluator::net::Multiplicities;
use evaluator::point::{LARGEST_DIVISOR, coordinate};
use evaluator::random::Random;
use evaluator::{live, point};

/// The checks of a divisor, each with the degree from which on it refuses divisors that no earlier one does.
const DIVISOR_CHECKS: [(u8, usize); 3] = [(10, 1), (11, 4), (15, 3)];

/// A sound call with the faults of these checks.
pub fn faulty(asked: Asked, checks: &[u8], shelf: &Shelf, random: &mut Random) -> Case {
    let of_divisor: Vec<_> = DIVISOR_CHECKS.into_iter().filter(|(check, _)| checks.contains(check)).collect();
    let mut v = shape(random);
    while of_divisor.iter().any(|&(_, least)| v.degree() < least) {
        v = shape(random);
    }
    let mut case = match of_divisor.first() {
        Some(&(check, _)) => {
            let divisor = refused_divisor(check, of_divisor.len() == 1, v, random);
            Case::over(divisor, asked, v, random)
        }
        None => Case::sound(asked, v, random),
    };
    // Last the first check's: what breaks the unit hides what the others need of it.
    for &check in checks.iter().rev() {
        fault(check, &mut case, shelf, random);
    }
    case
}

/// A divisor that this check refuses, alone or with a later one.
fn refused_divisor(check: u8, alone: bool, v: Multiplicities, random: &mut Random) -> u32 {
    let any = |random: &mut Random, first: u32, last: u32| random.between(first as usize, last as usize) as u32;
    let past = point::largest_divisor(v.degree()) + 1;
    match check {
        10 => {
            let above = any(random, LARGEST_DIVISOR + 1, u32::MAX);
            let choices = [LARGEST_DIVISOR + 1, above, u32::MAX, 0];
            pick(random, if alone { &choices } else { &choices[..3] })
        }
        11 => any(random, past, LARGEST_DIVISOR),
        _ => {
            let live_past = live::largest_divisor(v.degree()) + 1;
            let between = any(random, live_past, past - 1);
            pick(random, &[live_past, past - 1, between])
        }
    }
}

fn fault(check: u8, case: &mut Case, shelf: &Shelf, random: &mut Random) {
    let entries = case.handed.unit.n.into_iter().map(usize::from).product();
    match check {
        21 if random.below(2) == 0 => case.handed.unit.has_net = false,
        21 => break_multiplicities(&mut case.handed.unit.v, random),
        22 if random.below(2) == 0 => case.handed.unit.has_block = false,
        22 => break_sizes(&mut case.handed.unit.n, random),
        4 => case.net_length = too_short(case.net.of.places(), random),
        9 => {
            let mut lengths = [case.corrections.len(), case.uncertainties.len()];
            shorten(&mut lengths, entries, random);
            case.corrections.truncate(lengths[0]);
            case.uncertainties.truncate(lengths[1]);
        }
        12 => outside(case, random),
        13 => gaps_in_window(case, random),
        23 => one_share_more(case, shelf, random),
        _ => {}
    }
}

/// One or two entries that the point needs were never measured.
pub fn gaps_in_window(case: &mut Case, random: &mut Random) {
    for _ in 0..random.between(1, 2) {
        let index = needed_entry(case, random);
        case.corrections[index] = NEVER_MEASURED;
    }
}

/// The index of an entry that the point needs.
fn needed_entry(case: &Case, random: &mut Random) -> usize {
    let extents = case.net.of.extents();
    let j = [0, 1, 2].map(|b| case.cube[b] - random.between(0, extents[b] - 1));
    let [n1, n2, _] = case.handed.unit.n.map(usize::from);
    j[0] + n1 * (j[1] + n2 * j[2])
}

/// What is so much past an entry of an axis.
fn past(case: &Case, axis: usize, entry: usize, more: i64) -> i32 {
    coordinate(case.handed.unit.o[axis], entry, more, case.divisor)
}

/// What is so much past the far face of an axis.
fn past_far(case: &Case, axis: usize, more: i64) -> i32 {
    past(case, axis, case.handed.unit.n[axis].into(), more)
}

/// On one axis just below the window's room, at the origin or before it, just past the far face, or far away, as far
/// before the origin as the point is past it, or in a cell with its cell's low bits; or near the far face of a block
/// that has no room for the window.
fn outside(case: &mut Case, random: &mut Random) {
    let axis = random.between(0, 2);
    let extent = case.net.of.extents()[axis];
    if random.below(4) == 0 {
        case.handed.unit.n[axis] = random.between(1, extent - 1) as u16;
        let [below, far, above] = [-1, 0, 1].map(|more| past_far(case, axis, more));
        case.coordinates[axis] = pick(random, &[far, far, below, above, case.coordinates[axis]]);
        return;
    }
    let (cube, remainder, whole) = (case.cube[axis], i64::from(case.remainder[axis]), i64::from(case.divisor));
    let before = [past(case, axis, extent - 1, -1), past(case, axis, 0, 0), past(case, axis, 0, -1)];
    let after = [1, 1, whole].map(|more| past_far(case, axis, more));
    let mirrored = past(case, axis, 0, -(cube as i64 * whole + remainder));
    let same_bits = past(case, axis, cube + (1 << random.between(6, 20)), remainder);
    let away = [mirrored, same_bits, i32::MIN, i32::MAX];
    case.coordinates[axis] = pick(random, &[&before[..], &after, &away].concat());
}

/// The share of one needed entry is another at one local place of the point's tetrahedron.
fn one_share_more(case: &mut Case, shelf: &Shelf, random: &mut Random) {
    let v = case.net.of;
    let [_, b1, b2, b3] = pick(random, &quadruples(v.degree()));
    let mut place = v.extents().map(|e| v.degree() * random.between(0, e - 1));
    for (axis, local) in case.axes().into_iter().zip([b1 + b2 + b3, b2 + b3, b3]) {
        place[axis] += local;
    }
    let index = v.index(place);
    let by = random.between(1, u32::MAX as usize) as u32;
    let by = pick(random, &[1, u32::MAX, by]);
    case.net.changes.push((index, shelf.net(v).numbers[index].wrapping_add(by)));
}

/// Any unit over a small net and block, any point and any divisor.
pub fn free(asked: Asked, random: &mut Random) -> Case {
    let degree = random.between(1, 3);
    let v = pick(random, &Multiplicities::of_degree(degree));
    let any = random.below(1 << 32) as u32;
    let divisor = pick(random, &[0, 1, 2, 3, 4096, 4097, any]);
    let mut case = Case::over(divisor, asked, v, random);
    if random.below(2) == 0 {
        case.handed = unit(random);
    }
    for axis in 0..3 {
        let (own, any) = (case.coordinates[axis], random.below(1 << 32) as u32 as i32);
        let ends = [past(&case, axis, 0, -1), past_far(&case, axis, 0), past_far(&case, axis, 1)];
        let all = [&[own; 5][..], &ends, &[0, any, i32::MIN, i32::MAX]].concat();
        case.coordinates[axis] = pick(random, &all);
    }
    case
}
