//! One repeat of a direction by the step rule, row by row: what a row has in common is looked up once.

use super::shape::Shape;
use super::split::{DIRECTIONS, Split, splits};
use std::array;

/// The number at a coordinate of a row, 0 outside; a negative coordinate is a very large one.
fn at(row: &[u32], x: isize) -> u32 {
    row.get(x as usize).copied().unwrap_or(0)
}

/// A row of the old net, empty outside its box.
fn row<'a>(old: &Shape, net: &'a [u32], y: isize, z: isize) -> &'a [u32] {
    let (y, z, [w1, w2, w3]) = (y as usize, z as usize, old.widths);
    if y < w2 && z < w3 { &net[w1 * (y + w2 * z)..][..w1] } else { &[] }
}

/// Writes the net `to` that has one repeat of the direction more than the net `from`.
pub fn take_up(byte: u8, old: &Shape, from: &[u32], new: &Shape, to: &mut [u32]) {
    let [d1, d2, d3] = DIRECTIONS[usize::from(byte) - 1];
    let m = new.degree;
    let [w1, w2, w3] = new.widths;
    let (xs, ys, zs) = (splits(w1, m, d1), splits(w2, m, d2), splits(w3, m, d3));
    let back = |step: usize| ((m - 1) * step) as isize;
    for z in 0..w3 {
        for y in 0..w2 {
            let (written, rest) = to.split_at_mut(w1 * (y + w2 * z));
            let to = &mut rest[..w1];
            let lowered = |p: isize| (ys[y].lowered(p), zs[z].lowered(p));
            if byte == 1 {
                let rows = array::from_fn(|p| {
                    let (y, z) = lowered(p as isize);
                    row(old, from, y, z)
                });
                sum_along(&xs, &rows, back(1), to);
            } else {
                let pivot = match byte {
                    2 => ys[y].rest,
                    3 => zs[z].rest,
                    _ => m as isize,
                };
                let (ly, lz) = lowered(pivot);
                let near = row(old, from, ly, lz);
                let far = row(old, from, ly - back(d2), lz - back(d3));
                let before: &[u32] =
                    if y < d2 || z < d3 { &[] } else { &written[w1 * (y - d2 + w2 * (z - d3))..][..w1] };
                for (x, number) in to.iter_mut().enumerate() {
                    let lx = xs[x].lowered(pivot);
                    *number = at(before, x as isize - d1 as isize) + at(near, lx) - at(far, lx - back(d1));
                }
            }
        }
    }
}

/// A row of direction 1: the pivot is the place's own remainder, and for each there is a row to read.
fn sum_along(xs: &[Split], rows: &[&[u32]; 10], back: isize, to: &mut [u32]) {
    let mut sum = 0;
    for (split, number) in xs.iter().zip(to) {
        let (row, x) = (rows[split.rest as usize], split.base + split.rest);
        sum = sum + at(row, x) - at(row, x - back);
        *number = sum;
    }
}
