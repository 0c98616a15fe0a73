//! The checks of a placing call, and those of point calls and valuing calls up to 13, live ones included.

use super::Sums;
use super::place::{Placing, denominator, place};
use super::possible::possible;
use super::window::Window;
use crate::hand::shape::{Entries, Shape, block_entries};
use crate::hand::{Refusal, refuse, refuse_at};
use crate::torskavel::{self, Unit};

/// What a point call is handed.
#[derive(Clone, Copy)]
pub struct Call<'a> {
    pub unit: Unit,
    pub net: &'a [u32],
    pub corrections: &'a [i16],
    pub uncertainties: &'a [u16],
    pub coordinates: [i32; 3],
    pub divisor: u32,
}

/// What a valuing call is handed.
#[derive(Clone, Copy)]
pub struct Valuing<'a> {
    pub unit: Unit,
    pub net: &'a [u32],
    pub corrections: &'a [i16],
    pub uncertainties: &'a [u16],
    pub placing: torskavel::Placing,
}

/// A call that has a window and a placing, where its checks up to 13 do not refuse it.
pub trait Checked<'a> {
    fn checked<S: Sums>(&self) -> Result<(Window<'a>, Placing), Refusal>;
}

impl<'a> Checked<'a> for Call<'a> {
    /// Checks 21, 22, 4, 9, 10, 11, 15, 12, 13.
    fn checked<S: Sums>(&self) -> Result<(Window<'a>, Placing), Refusal> {
        let &Call { unit, net, corrections, uncertainties, coordinates, divisor } = self;
        let (shape, block) = held(&unit)?;
        let sizes = block.sizes;
        room(&shape, sizes, net, corrections, uncertainties)?;
        let denominator = denominator(&shape, divisor)?;
        if denominator > S::LARGEST_DENOMINATOR {
            return refuse(15);
        }
        let placing = place(&shape, &block, coordinates, divisor, denominator)?;
        measured(Window { shape, sizes, cell: placing.cell, net, corrections, uncertainties }, placing)
    }
}

impl<'a> Checked<'a> for Valuing<'a> {
    /// Checks 21, 22, 17, 15, 4, 9, 13.
    fn checked<S: Sums>(&self) -> Result<(Window<'a>, Placing), Refusal> {
        let &Valuing { unit, net, corrections, uncertainties, placing } = self;
        let (shape, Entries { sizes, .. }) = held(&unit)?;
        let placing = possible(&shape, sizes, placing)?;
        if placing.denominator > S::LARGEST_DENOMINATOR {
            return refuse(15);
        }
        room(&shape, sizes, net, corrections, uncertainties)?;
        measured(Window { shape, sizes, cell: placing.cell, net, corrections, uncertainties }, placing)
    }
}

/// A placing call, with the checks 21, 22, 10, 11, 12.
pub fn placed(unit: Unit, coordinates: [i32; 3], divisor: u32) -> Result<torskavel::Placing, Refusal> {
    let (shape, block) = held(&unit)?;
    let denominator = denominator(&shape, divisor)?;
    place(&shape, &block, coordinates, divisor, denominator).map(Placing::into)
}

/// Checks 21 and 22: what the unit has.
fn held(unit: &Unit) -> Result<(Shape, Entries), Refusal> {
    let Some(shape) = Shape::of_unit(unit) else { return refuse(21) };
    let Some(block) = block_entries(unit) else { return refuse(22) };
    Ok((shape, block))
}

/// Checks 4 and 9.
fn room(shape: &Shape, sizes: [usize; 3], net: &[u32], c: &[i16], u: &[u16]) -> Result<(), Refusal> {
    if net.len() < shape.places() {
        return refuse(4);
    }
    let entries = sizes.iter().product();
    if c.len() < entries || u.len() < entries { refuse(9) } else { Ok(()) }
}

/// Check 13.
fn measured(window: Window, placing: Placing) -> Result<(Window, Placing), Refusal> {
    match window.gap() {
        Some(index) => refuse_at(13, index),
        None => Ok((window, placing)),
    }
}
