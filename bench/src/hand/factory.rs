//! Copies the net of 2, 2, 2, 1 from a constant table.

use super::{Refusal, refuse};
use crate::torskavel::Unit;

const PLACES: usize = 13 * 13 * 13;

/// build.rs writes it from the evaluator's numbers.
static TABLE: [u32; PLACES] = include!(concat!(env!("OUT_DIR"), "/factory.rs"));

pub type Factory = fn(Unit, &mut [u32]) -> Result<Unit, Refusal>;

/// Place by place. Check 4.
pub fn factory(unit: Unit, net: &mut [u32]) -> Result<Unit, Refusal> {
    if net.len() < PLACES {
        return refuse(4);
    }
    for (place, &number) in net.iter_mut().zip(&TABLE) {
        *place = number;
    }
    Ok(copied(unit))
}

/// All at once.
pub fn factory_tuned(unit: Unit, net: &mut [u32]) -> Result<Unit, Refusal> {
    let Some(places) = net.first_chunk_mut() else { return refuse(4) };
    *places = TABLE;
    Ok(copied(unit))
}

fn copied(unit: Unit) -> Unit {
    Unit { has_net: 1, v1: 2, v2: 2, v3: 2, v4: 1, ..unit }
}
