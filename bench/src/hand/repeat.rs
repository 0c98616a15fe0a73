//! One repeat of a direction by the step rule, place by place.

use super::shape::Shape;
use super::split::{DIRECTIONS, splits};

/// A net that is 0 outside its box.
struct Spread<'a> {
    widths: [usize; 3],
    numbers: &'a [u32],
}

impl Spread<'_> {
    fn at(&self, [x, y, z]: [isize; 3]) -> u32 {
        // A negative coordinate is a very large one.
        let (x, y, z) = (x as usize, y as usize, z as usize);
        let [w1, w2, w3] = self.widths;
        if x < w1 && y < w2 && z < w3 { self.numbers[x + w1 * (y + w2 * z)] } else { 0 }
    }
}

/// Writes the net `new` that has one repeat of the direction more than `old`.
pub fn take_up(byte: u8, old: &Shape, from: &[u32], new: &Shape, to: &mut [u32]) {
    let direction = DIRECTIONS[usize::from(byte) - 1];
    let m = new.degree;
    let [xs, ys, zs] = [0, 1, 2].map(|b| splits(new.widths[b], m, direction[b]));
    let back = direction.map(|step| ((m - 1) * step) as isize);
    let strides = new.strides();
    let stride: usize = (0..3).map(|b| direction[b] * strides[b]).sum();
    let old = Spread { widths: old.widths, numbers: from };
    let mut index = 0;
    for (z, sz) in zs.iter().enumerate() {
        for (y, sy) in ys.iter().enumerate() {
            for (x, sx) in xs.iter().enumerate() {
                let pivot = match byte {
                    1 => sx.rest,
                    2 => sy.rest,
                    3 => sz.rest,
                    _ => m as isize,
                };
                let near = [sx, sy, sz].map(|split| split.lowered(pivot));
                let far = [near[0] - back[0], near[1] - back[1], near[2] - back[2]];
                let first = x < direction[0] || y < direction[1] || z < direction[2];
                let before = if first { 0 } else { to[index - stride] };
                to[index] = before + old.at(near) - old.at(far);
                index += 1;
            }
        }
    }
}
