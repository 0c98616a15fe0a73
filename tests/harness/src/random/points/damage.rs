//! Lent nets that are no defined nets.

use super::super::{pick, shape};
use super::case::Case;
use crate::shelf::Shelf;
use evaluator::net::{Multiplicities, Net};
use evaluator::random::Random;
use evaluator::ratio::factorial;

pub type Way = fn(&mut Case, &Shelf, &mut Random);

pub const WAYS: [Way; 6] = [one_number, moved, moved, wrapped, another, any_numbers];

/// Nets up to so many places get any numbers.
const SMALL: usize = 700;

fn one_number(case: &mut Case, shelf: &Shelf, random: &mut Random) {
    let index = random.between(0, case.net.of.places() - 1);
    let number = shelf.net(case.net.of).numbers[index];
    case.net.changes.push((index, number.wrapping_add(pick(random, &[1, u32::MAX]))));
}

/// A place whose number is not 0.
fn nonzero(net: &Net, random: &mut Random) -> [usize; 3] {
    let count = net.numbers.iter().filter(|&&number| number != 0).count();
    let (place, _) = net.listing().nth(random.between(0, count - 1)).expect("fewer than the count");
    place
}

/// A place that is the share of some entry wherever the given inner one is that of another: no sum of shares changes when
/// a number goes from one to the other. Off the box's faces a coordinate that the degree divides belongs to two cubes.
fn companion(v: Multiplicities, place: [usize; 3], random: &mut Random) -> [usize; 3] {
    let extents = v.extents();
    [0, 1, 2].map(|b| {
        let residue = place[b] % v.degree();
        v.degree() * random.between(usize::from(residue == 0), extents[b] - 1) + residue
    })
}

/// Parts of numbers are moved so that the shares still add up to m!.
fn moved(case: &mut Case, shelf: &Shelf, random: &mut Random) {
    let v = case.net.of;
    let net = shelf.net(v);
    let mut numbers = net.numbers.clone();
    for _ in 0..random.between(1, 8) {
        let from = nonzero(net, random);
        let to = v.index(companion(v, from, random));
        let from = v.index(from);
        let part = random.between(0, numbers[from] as usize) as u32;
        numbers[from] -= part;
        numbers[to] += part;
        case.net.changes.extend([(from, numbers[from]), (to, numbers[to])]);
    }
}

/// Two numbers are 2^31 larger, which 32 bits do not see in the sum of shares.
fn wrapped(case: &mut Case, shelf: &Shelf, random: &mut Random) {
    let v = case.net.of;
    let net = shelf.net(v);
    let from = nonzero(net, random);
    for place in [from, companion(v, from, random)] {
        case.net.changes.push((v.index(place), net.at(place) + (1 << 31)));
    }
}

/// The net of other multiplicities.
fn another(case: &mut Case, _: &Shelf, random: &mut Random) {
    case.net.of = shape(random);
}

/// Numbers up to m! throughout, all of them 0 or m! now and then; a large net gets few of them.
fn any_numbers(case: &mut Case, _: &Shelf, random: &mut Random) {
    let places = case.net.of.places();
    let greatest = factorial(case.net.of.degree()) as usize;
    let least = pick(random, &[0, 0, greatest]);
    let greatest = pick(random, &[least, greatest]);
    for index in 0..places.min(SMALL) {
        case.net.changes.push((index, random.between(least, greatest) as u32));
    }
}
