//! Placings: docs/SPECIFICATION.md, 9. Whether one is possible is found by search, not by its fields: each point that
//! could be placed so is placed.

use crate::formats::join;
use crate::point::{self, Placed, held};
use crate::unit::{Refusal, Unit};
use std::fmt;

/// Any values, also such as no point has.
#[derive(Clone, Copy, PartialEq, Eq, PartialOrd, Ord, Hash, Debug)]
pub struct Placing {
    /// k on each axis.
    pub cell: [u32; 3],
    /// p, r, s, of the axes 1, 2, 3.
    pub order: [u8; 3],
    /// L0 to L3.
    pub weights: [u32; 4],
}

impl fmt::Display for Placing {
    fn fmt(&self, f: &mut fmt::Formatter) -> fmt::Result {
        write!(f, "{} {} {}", join(self.cell), join(self.order), join(self.weights))
    }
}

/// The axes by remainder, largest first, of equal ones the lower axis first.
fn axis_order(remainder: [u32; 3]) -> [usize; 3] {
    let mut order = [0, 1, 2];
    order.sort_by_key(|&b| (std::cmp::Reverse(remainder[b]), b));
    order
}

impl Placing {
    pub fn of(placed: &Placed) -> Placing {
        let Placed { divisor, remainder, .. } = *placed;
        let remainder = [0, 1, 2].map(|b| if placed.is_far(b) { divisor } else { remainder[b] });
        let order = axis_order(remainder);
        let [p, r, s] = order.map(|b| remainder[b]);
        Placing {
            cell: placed.cell().map(|k| k as u32),
            order: order.map(|b| b as u8 + 1),
            weights: [divisor - p, p - r, r - s, s],
        }
    }

    /// The sum of the weights, where it is a divisor of 32 bits.
    fn divisor(&self) -> Option<u32> {
        u32::try_from(self.weights.into_iter().map(u64::from).sum::<u64>()).ok()
    }

    /// The coordinates on an axis that a point placed so can have in a block with this origin: in the cell those of its
    /// three remainders, and the cell's end, which may be the far face.
    fn coordinates(&self, axis: usize, origin: i16, divisor: u32) -> Vec<i32> {
        let [_, l1, l2, l3] = self.weights.map(i128::from);
        let (position, divisor) = (i128::from(origin) + i128::from(self.cell[axis]), i128::from(divisor));
        let remainders = [l3, l2 + l3, l1 + l2 + l3, divisor];
        remainders.into_iter().filter_map(|u| i32::try_from(position * divisor + u).ok()).collect()
    }
}

/// A placing call.
pub fn place(unit: &Unit, coordinates: [i32; 3], divisor: u32) -> Result<Placing, Refusal> {
    point::place(unit, coordinates, divisor).map(|placed| Placing::of(&placed))
}

/// A point that is placed so, as its coordinates and divisor. Checks 21, 22, 17, in this order.
pub fn point_of(unit: &Unit, placing: &Placing) -> Result<([i32; 3], u32), Refusal> {
    held(unit)?;
    find(unit, placing).ok_or(Refusal::from(17))
}

fn find(unit: &Unit, placing: &Placing) -> Option<([i32; 3], u32)> {
    let divisor = placing.divisor()?;
    let [xs, ys, zs] = &[0, 1, 2].map(|axis| placing.coordinates(axis, unit.o[axis], divisor));
    let mut points = xs.iter().flat_map(|&x| ys.iter().flat_map(move |&y| zs.iter().map(move |&z| [x, y, z])));
    points.find(|&point| place(unit, point, divisor) == Ok(*placing)).map(|point| (point, divisor))
}

#[cfg(test)]
mod tests;
