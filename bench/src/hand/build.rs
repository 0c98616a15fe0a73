//! Builds a net from an order of repeats.

use super::shape::Shape;
use super::{Refusal, refuse, refuse_at, repeat, rows};
use crate::torskavel::Unit;

const LONGEST_ORDER: usize = 8;

/// Writes the net with one repeat more: direction, shape and net before, shape and net after.
type TakeUp = fn(u8, &Shape, &[u32], &Shape, &mut [u32]);

pub type Build = fn(Unit, &[u8], &mut [u32], &mut [u32]) -> Result<Unit, Refusal>;

/// Place by place. Checks 1, 2, 4.
pub fn build(unit: Unit, order: &[u8], net: &mut [u32], work: &mut [u32]) -> Result<Unit, Refusal> {
    build_by(repeat::take_up, unit, order, net, work)
}

/// Row by row.
pub fn build_tuned(unit: Unit, order: &[u8], net: &mut [u32], work: &mut [u32]) -> Result<Unit, Refusal> {
    build_by(rows::take_up, unit, order, net, work)
}

fn build_by(
    take_up: TakeUp,
    unit: Unit,
    order: &[u8],
    net: &mut [u32],
    work: &mut [u32],
) -> Result<Unit, Refusal> {
    if order.len() > LONGEST_ORDER {
        return refuse(1);
    }
    if let Some(position) = order.iter().position(|byte| !(1..=4).contains(byte)) {
        return refuse_at(2, position);
    }
    let mut v = [1u8; 4];
    for &byte in order {
        v[usize::from(byte) - 1] += 1;
    }
    let places = Shape::of(v).places();
    if net.len() < places || work.len() < places {
        return refuse(4);
    }
    lay_net(take_up, order, net, work);
    let [v1, v2, v3, v4] = v;
    Ok(Unit { has_net: 1, v1, v2, v3, v4, ..unit })
}

/// Each repeat reads one slice and writes the other; the first is chosen so that the last written is `net`.
fn lay_net(take_up: TakeUp, order: &[u8], net: &mut [u32], work: &mut [u32]) {
    let (mut from, mut to) = if order.len().is_multiple_of(2) { (net, work) } else { (work, net) };
    from[..27].fill(0);
    from[13] = 1;
    let mut v = [1u8; 4];
    for &byte in order {
        let old = Shape::of(v);
        v[usize::from(byte) - 1] += 1;
        let new = Shape::of(v);
        take_up(byte, &old, &from[..old.places()], &new, &mut to[..new.places()]);
        (from, to) = (to, from);
    }
}
