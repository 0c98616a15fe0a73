//! A placing that was handed to a valuing call: the point that it stands for, or the rules that it breaks.

use crate::library::{Block, Net};
use crate::parts::words;
use crate::torskavel::{MAX_DENOMINATOR, MAX_DIVISOR, MAX_ENTRIES, MAX_SIZE, Placing};
use crate::{divisors, outside};

/// The ten numbers, which may be any.
#[derive(Clone, Copy)]
pub struct Handed {
    pub cell: [u32; 3],
    /// The axes p, r, s, which should be 1, 2, 3.
    pub axes: [u8; 3],
    pub weights: [u32; 4],
}

impl Handed {
    pub fn record(&self) -> Placing {
        let ([k1, k2, k3], [p, r, s], [l0, l1, l2, l3]) = (self.cell, self.axes, self.weights);
        Placing { k1, k2, k3, p, r, s, l0, l1, l2, l3 }
    }

    /// The sum of the weights, which may need more than 32 bits.
    pub fn divisor(&self) -> u64 {
        self.weights.iter().map(|&weight| u64::from(weight)).sum()
    }

    /// The remainders on the axes 1, 2, 3, where each of these is there.
    fn remainders(&self) -> Option<[u64; 3]> {
        let mut remainders = [None; 3];
        for (i, &axis) in self.axes.iter().enumerate() {
            let later = self.weights[i + 1..].iter().map(|&weight| u64::from(weight)).sum();
            *remainders.get_mut(usize::from(axis).wrapping_sub(1))? = Some(later);
        }
        let [Some(u1), Some(u2), Some(u3)] = remainders else { return None };
        Some([u1, u2, u3])
    }

    /// Coordinates and divisor of the point that it stands for, where it is possible.
    pub fn point(&self, net: &Net, block: &Block) -> Option<([i32; 3], u32)> {
        let remainders = self.remainders().filter(|_| self.broken(net, block).is_empty())?;
        // no more than 64 cells, an origin of 16 bits and a divisor of 4096: 32 bits are enough
        let divisor = self.divisor() as i32;
        let position = |b: usize| i32::from(block.origin[b]) + self.cell[b] as i32;
        Some(([0, 1, 2].map(|b| position(b) * divisor + remainders[b] as i32), divisor as u32))
    }

    fn of_divisor(&self, degree: usize) -> Option<String> {
        let divisor = self.divisor();
        let together = format!("the weights add up to {divisor}, which is the divisor");
        let largest = divisors::largest(degree, MAX_DENOMINATOR);
        match divisor {
            0 => Some(format!("{together}: it must be at least 1")),
            d if d > MAX_DIVISOR.into() => Some(format!("{together}: it must be at most {MAX_DIVISOR}")),
            d if d > largest.into() => {
                let power = format!("{degree}! x {divisor}^{degree} would pass 2^48");
                Some(format!("{together}: {power}, and {largest} is the largest for degree {degree}"))
            }
            _ => None,
        }
    }

    /// Where a weight is 0 two axes have the same remainder.
    fn of_ties(&self) -> impl Iterator<Item = String> {
        let Handed { axes, weights, .. } = *self;
        (0..2).filter(move |&i| weights[i + 1] == 0 && axes[i] > axes[i + 1]).map(move |i| {
            let same = format!("the axes {} and {} have the same remainder", axes[i], axes[i + 1]);
            format!("weight L{} is 0, so {same}: the lower axis must come first", i + 1)
        })
    }

    fn of_axis(&self, b: usize, extent: usize, size: usize) -> Option<String> {
        let (axis, cell) = (b + 1, self.cell[b] as usize);
        if size < extent {
            return Some(outside::too_small(axis, extent, size));
        }
        let (first, last, divisor) = (extent - 1, size - 1, self.divisor());
        let wrong = match cell {
            cell if cell < first => "too low",
            cell if cell > last => "past the table",
            cell if cell < last && divisor > 0 && self.remainders()?[b] == divisor => {
                let only = format!("only on the far face, in the last cell, {last}, and not in cell {cell}");
                return Some(format!("axis {axis}: the remainder is the divisor, which is so {only}"));
            }
            _ => return None,
        };
        Some(format!("axis {axis}: cell {cell} is {wrong}; inside are the cells {first} to {last}"))
    }

    /// The rules that it breaks, in words; none where a point has it.
    pub fn broken(&self, net: &Net, block: &Block) -> Vec<String> {
        let mut broken = Vec::new();
        if self.remainders().is_none() {
            let each = "each of 1, 2, 3 must stand in it once";
            broken.push(format!("the axis order is {}: {each}", words(&self.axes)));
        }
        broken.extend(self.of_divisor(net.degree()));
        broken.extend(self.of_ties().filter(|_| self.remainders().is_some()));
        let extents = net.extents();
        broken.extend((0..3).filter_map(|b| self.of_axis(b, extents[b], block.sizes[b])));
        broken
    }

    /// Whether any unit gives it: then one does that has the simple net and a table that ends with the cell.
    pub fn of_some_unit(&self) -> bool {
        let sizes = self.cell.map(|cell| u128::from(cell) + 1);
        self.remainders().is_some()
            && self.of_divisor(1).is_none()
            && self.of_ties().next().is_none()
            && sizes.iter().all(|size| (2..=MAX_SIZE.into()).contains(size))
            && sizes.iter().product::<u128>() <= MAX_ENTRIES as u128
    }

    pub fn is_zeros(&self) -> bool {
        self.cell == [0; 3] && self.axes == [0; 3] && self.weights == [0; 4]
    }
}
