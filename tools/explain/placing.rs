//! Where a point lies: its cell, the order of the axes, the four weights, the window, and where it reads the
//! table.

use crate::library::{Block, Net};
use crate::point::Point;

pub struct Placing {
    pub point: Point,
    /// Counted from the table's first entry.
    pub cell: [usize; 3],
    pub remainders: [u32; 3],
    /// The axes p, r, s, counted from 0.
    pub axes: [usize; 3],
    pub weights: [u32; 4],
}

/// Cell and remainder of a coordinate that is read from the origin, on an axis of so many entries. The far
/// face belongs to the last cell, with the divisor as its remainder.
fn divided(read: u64, divisor: u32, size: usize) -> (usize, u32) {
    let by = u64::from(divisor);
    match ((read / by) as usize, (read % by) as u32) {
        (cell, 0) if cell == size => (cell - 1, divisor),
        within => within,
    }
}

impl Placing {
    /// None where the point is before the origin.
    pub fn of(point: Point, sizes: [usize; 3]) -> Option<Placing> {
        if point.is_before_on_some_axis() {
            return None;
        }
        let divisor = point.divisor;
        let divided = [0, 1, 2].map(|b| divided(point.read(b) as u64, divisor, sizes[b]));
        let remainders = divided.map(|(_, remainder)| remainder);
        let mut axes = [0, 1, 2];
        // A sort that is stable leaves ties by the lower axis.
        axes.sort_by_key(|&b| std::cmp::Reverse(remainders[b]));
        let [up, ur, us] = axes.map(|b| remainders[b]);
        Some(Placing {
            point,
            cell: divided.map(|(cell, _)| cell),
            remainders,
            axes,
            weights: [divisor - up, up - ur, ur - us, us],
        })
    }

    /// Whether the point is on the far face of an axis.
    pub fn on_far_face(&self, axis: usize) -> bool {
        self.remainders[axis] == self.point.divisor
    }

    /// The local place of b0, b1, b2, b3.
    pub fn local_place(&self, [_, b1, b2, b3]: [usize; 4]) -> [usize; 3] {
        let [p, r, s] = self.axes;
        let mut place = [0; 3];
        place[p] = b1 + b2 + b3;
        place[r] = b2 + b3;
        place[s] = b3;
        place
    }

    /// The window k−E+1 to k, where it is on the table.
    pub fn window(&self, net: &Net, block: &Block) -> Option<Window> {
        let extents = net.extents();
        let inside = (0..3).all(|b| self.cell[b] + 1 >= extents[b] && self.cell[b] < block.sizes[b]);
        inside.then(|| Window { low: [0, 1, 2].map(|b| self.cell[b] + 1 - extents[b]), high: self.cell })
    }

    /// Twice the coordinate that is read from the origin, less the extent's part, over 2D: where on an axis
    /// the point reads the table.
    pub fn reading(&self, net: &Net, axis: usize) -> i128 {
        2 * i128::from(self.point.read(axis)) - net.extents()[axis] as i128 * i128::from(self.point.divisor)
    }
}

#[derive(Clone, Copy)]
pub struct Window {
    pub low: [usize; 3],
    pub high: [usize; 3],
}

impl Window {
    pub fn count(&self) -> usize {
        (0..3).map(|b| self.high[b] - self.low[b] + 1).product()
    }

    /// From the highest entry down, so that the places in the net go up.
    pub fn entries(&self) -> Vec<[usize; 3]> {
        let on = |b: usize| (self.low[b]..=self.high[b]).rev();
        let rows = on(2).flat_map(|j3| on(1).map(move |j2| (j2, j3)));
        rows.flat_map(|(j2, j3)| on(0).map(move |j1| [j1, j2, j3])).collect()
    }
}

/// The table read on straight lines between the eight entries around a point that is inside, correction and
/// uncertainty, each over (2D)³. None where one of them counts and was never measured.
pub fn plain_reading(placing: &Placing, net: &Net, block: &Block) -> Option<[i128; 2]> {
    let whole = 2 * i128::from(placing.point.divisor);
    let mut sums = [0, 0];
    for corner in 0..8 {
        let (mut entry, mut weight) = ([0; 3], 1);
        for b in 0..3 {
            let (steps, rest) =
                (placing.reading(net, b).div_euclid(whole), placing.reading(net, b).rem_euclid(whole));
            let above = corner >> b & 1;
            entry[b] = usize::try_from(steps).ok()? + above;
            weight *= if above == 1 { rest } else { whole - rest };
        }
        // of a point inside, an entry past the table has the weight 0
        if weight == 0 {
            continue;
        }
        if block.is_gap(entry) {
            return None;
        }
        sums[0] += weight * i128::from(block.correction(entry));
        sums[1] += weight * i128::from(block.uncertainty(entry));
    }
    Some(sums)
}
