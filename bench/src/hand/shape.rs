//! Degree, extents and box of a net, sizes of a block, and their limits.

use crate::torskavel::Unit;

const LARGEST_SUM: u32 = 12;
const LARGEST_SIZE: usize = 64;
const LARGEST_BLOCK: usize = 4096;

#[derive(Clone, Copy)]
pub struct Shape {
    /// m
    pub degree: usize,
    /// E1, E2, E3
    pub extents: [usize; 3],
    /// W1, W2, W3
    pub widths: [usize; 3],
}

impl Shape {
    /// Of multiplicities within the limits.
    pub fn of(v: [u8; 4]) -> Shape {
        let v = v.map(usize::from);
        let degree = v.iter().sum::<usize>() - 3;
        let extents = [v[0] + v[3], v[1] + v[3], v[2] + v[3]];
        Shape { degree, extents, widths: extents.map(|e| degree * e + 1) }
    }

    /// Of multiplicities that may break the limits.
    pub fn allowed(v: [u8; 4]) -> Option<Shape> {
        let allowed = !v.contains(&0) && v.iter().map(|&v| u32::from(v)).sum::<u32>() <= LARGEST_SUM;
        allowed.then(|| Shape::of(v))
    }

    /// Of the net that a unit counts as having.
    pub fn of_unit(unit: &Unit) -> Option<Shape> {
        Shape::allowed([unit.v1, unit.v2, unit.v3, unit.v4]).filter(|_| unit.has_net == 1)
    }

    pub fn places(&self) -> usize {
        self.widths.iter().product()
    }

    /// How far apart neighbours on each axis stand.
    pub fn strides(&self) -> [usize; 3] {
        [1, self.widths[0], self.widths[0] * self.widths[1]]
    }
}

/// Sizes of a block, where they keep the limits.
pub fn allowed_sizes(n: [u16; 3]) -> Option<[usize; 3]> {
    let n = n.map(usize::from);
    let allowed =
        n.iter().all(|n| (1..=LARGEST_SIZE).contains(n)) && n.iter().product::<usize>() <= LARGEST_BLOCK;
    allowed.then_some(n)
}

/// Where a block's entries are: n1, n2, n3 and o1, o2, o3.
pub struct Entries {
    pub sizes: [usize; 3],
    pub origin: [i16; 3],
}

/// Of the block that a unit counts as having.
pub fn block_entries(unit: &Unit) -> Option<Entries> {
    let sizes = allowed_sizes([unit.n1, unit.n2, unit.n3]).filter(|_| unit.has_block == 1)?;
    Some(Entries { sizes, origin: [unit.o1, unit.o2, unit.o3] })
}
