//! Where a point lies: its cell, the order of the axes, and the weights.

use crate::hand::shape::{Entries, Shape};
use crate::hand::{Refusal, refuse};
use crate::torskavel;

pub const LARGEST_DIVISOR: u32 = 4096;
const LARGEST_DENOMINATOR: u64 = 1 << 48;
/// Those of degree 9.
const MOST_LOCAL_PLACES: usize = 220;

pub struct Placing {
    /// k on each axis.
    pub cell: [usize; 3],
    /// The axes p, r, s.
    pub axes: [usize; 3],
    /// L0 to L3.
    pub weights: [u64; 4],
    /// m!×D^m
    pub denominator: u64,
}

impl Placing {
    /// How far apart in the net neighbours on the axes p, r, s stand.
    pub fn strides(&self, shape: &Shape) -> [usize; 3] {
        let strides = shape.strides();
        self.axes.map(|axis| strides[axis])
    }

    /// Where all local places stand in the net, in the order in which their blended numbers are asked for.
    pub fn local_places(&self, shape: &Shape) -> Vec<usize> {
        let [p, r, s] = self.strides(shape);
        let mut list = Vec::with_capacity(MOST_LOCAL_PLACES);
        for a1 in 0..=shape.degree {
            for a2 in 0..=a1 {
                for a3 in 0..=a2 {
                    list.push(p * a1 + r * a2 + s * a3);
                }
            }
        }
        list
    }
}

/// As the calls hand it on; no number is above what is read from the origin.
impl From<Placing> for torskavel::Placing {
    fn from(placing: Placing) -> torskavel::Placing {
        let [k1, k2, k3] = placing.cell.map(|k| k as u32);
        let [p, r, s] = placing.axes.map(|axis| axis as u8 + 1);
        let [l0, l1, l2, l3] = placing.weights.map(|weight| weight as u32);
        torskavel::Placing { k1, k2, k3, p, r, s, l0, l1, l2, l3 }
    }
}

/// m!×D^m, or a refusal by 10 or 11. The product so far never exceeds the whole one, so none on the way
/// overflows.
pub fn denominator(shape: &Shape, divisor: u32) -> Result<u64, Refusal> {
    if divisor == 0 || divisor > LARGEST_DIVISOR {
        return refuse(10);
    }
    (1..=shape.degree as u64).try_fold(1, |product, i| {
        let product = product * i * u64::from(divisor);
        if product <= LARGEST_DENOMINATOR { Ok(product) } else { refuse(11) }
    })
}

/// A coordinate read from the origin, or nothing where it is before it. It is below 2^31 + 2^27 by an allowed
/// divisor, so 32 bits hold what is not negative.
fn from_origin(coordinate: i32, origin: i16, divisor: u32) -> Option<u32> {
    u32::try_from(i64::from(coordinate) - i64::from(origin) * i64::from(divisor)).ok()
}

/// k and u of what is read from the origin. The far face belongs to the last cell; asked before the division,
/// it costs next to nothing.
fn split(steps: u32, size: usize, divisor: u32) -> (usize, u64) {
    if steps == size as u32 * divisor {
        return (size - 1, divisor.into());
    }
    ((steps / divisor) as usize, (steps % divisor).into())
}

/// Check 12. The divisor is allowed, and `denominator` is its own.
pub fn place(
    shape: &Shape,
    block: &Entries,
    coordinates: [i32; 3],
    divisor: u32,
    denominator: u64,
) -> Result<Placing, Refusal> {
    let Entries { sizes, origin } = *block;
    let steps = [0, 1, 2].map(|b| from_origin(coordinates[b], origin[b], divisor));
    let [Some(x), Some(y), Some(z)] = steps else { return refuse(12) };
    let steps = [x, y, z];
    let split = [0, 1, 2].map(|b| split(steps[b], sizes[b], divisor));
    let cell = split.map(|(cell, _)| cell);
    let inside = (0..3).all(|b| shape.extents[b] <= cell[b] + 1 && cell[b] < sizes[b]);
    if !inside {
        return refuse(12);
    }
    let rest = split.map(|(_, rest)| rest);
    let mut axes = [0, 1, 2];
    // Stable: of equal remainders the lower axis stays first.
    axes.sort_by(|&a, &b| rest[b].cmp(&rest[a]));
    let [p, r, s] = axes.map(|axis| rest[axis]);
    Ok(Placing { cell, axes, weights: [u64::from(divisor) - p, p - r, r - s, s], denominator })
}
