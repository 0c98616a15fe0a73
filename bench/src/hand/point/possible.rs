//! Whether a point can have a placing, by its fields: docs/SPECIFICATION.md, 9.7.

use super::place::{LARGEST_DIVISOR, Placing, denominator};
use crate::hand::shape::Shape;
use crate::hand::{Refusal, refuse};
use crate::torskavel;

/// Check 17.
pub fn possible(shape: &Shape, sizes: [usize; 3], record: torskavel::Placing) -> Result<Placing, Refusal> {
    let torskavel::Placing { k1, k2, k3, p, r, s, l0, l1, l2, l3 } = record;
    let order = [p, r, s];
    let has_each_axis = order.iter().all(|axis| (1..=3).contains(axis)) && p != r && r != s && p != s;
    let weights = [l0, l1, l2, l3].map(u64::from);
    let divisor = weights.iter().sum::<u64>();
    let cell = [k1, k2, k3].map(|k| k as usize);
    let inside = (0..3).all(|b| shape.extents[b] <= cell[b] + 1 && cell[b] < sizes[b]);
    let lower_first = (l1 > 0 || p < r) && (l2 > 0 || r < s);
    if !has_each_axis || divisor > LARGEST_DIVISOR.into() || !inside || !lower_first {
        return refuse(17);
    }
    let Ok(denominator) = denominator(shape, divisor as u32) else { return refuse(17) };
    let axes = order.map(|axis| usize::from(axis - 1));
    let is_last = |axis: usize| cell[axis] == sizes[axis] - 1;
    // Of the remainders, largest first, those that are the divisor.
    let far = [l0 == 0, l0 == 0 && l1 == 0, l0 == 0 && l1 == 0 && l2 == 0];
    if (0..3).any(|i| far[i] && !is_last(axes[i])) {
        return refuse(17);
    }
    Ok(Placing { cell, axes, weights, denominator })
}
