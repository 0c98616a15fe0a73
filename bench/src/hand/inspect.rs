//! Compares a net with the defined one.

use super::build::{Build, build, build_tuned};
use super::shape::Shape;
use super::{Refusal, refuse, refuse_at};
use crate::torskavel::Unit;

/// The defined net built place by place. Checks 3, 4, 14.
pub fn inspect(
    unit: Unit,
    v: [u8; 4],
    net: &[u32],
    defined: &mut [u32],
    work: &mut [u32],
) -> Result<Unit, Refusal> {
    inspect_by(build, unit, v, net, defined, work)
}

/// The defined net built row by row.
pub fn inspect_tuned(
    unit: Unit,
    v: [u8; 4],
    net: &[u32],
    defined: &mut [u32],
    work: &mut [u32],
) -> Result<Unit, Refusal> {
    inspect_by(build_tuned, unit, v, net, defined, work)
}

fn inspect_by(
    build: Build,
    unit: Unit,
    v: [u8; 4],
    net: &[u32],
    defined: &mut [u32],
    work: &mut [u32],
) -> Result<Unit, Refusal> {
    let Some(shape) = Shape::allowed(v) else { return refuse(3) };
    let places = shape.places();
    if net.len() < places {
        return refuse(4);
    }
    // The order is an allowed one, so it is refused for the lengths of the work slices alone.
    let unit = build(unit, &defined_order(v), defined, work)?;
    match net.iter().zip(&defined[..places]).position(|(lent, defined)| lent != defined) {
        Some(index) => refuse_at(14, index),
        None => Ok(unit),
    }
}

/// The order that defines the net of these multiplicities; a 0 counts as 1.
pub fn defined_order([v1, v2, v3, v4]: [u8; 4]) -> Vec<u8> {
    let repeats = |direction: u8, v: u8| vec![direction; usize::from(v.saturating_sub(1))];
    [repeats(1, v1), repeats(3, v3), repeats(2, v2), repeats(4, v4)].concat()
}
