//! Recurrence (1) and (2) of the article for the four directions, at all whole-number translates of one point.
//!
//! Equal columns of the direction matrix have equal terms in (1), so they are taken together: with T_i the sum of the
//! t_h over the columns of direction i, of which there are v_i, and x = sum of T_i d_i,
//!
//!   m M_v(x) = sum over i of  T_i M_{v-i}(x) + (v_i - T_i) M_{v-i}(x - d_i).
//!
//! The point is u/Q in the unit cube and the numbers held are m! Q^m M, which makes every quantity whole.

use std::collections::HashMap;

pub const DIRECTIONS: [[i64; 3]; 4] = [[1, 0, 0], [0, 1, 0], [0, 0, 1], [1, 1, 1]];

/// The six orders of the axes; each is one tetrahedron of a cube, where the fraction on its first axis is the largest.
pub const AXIS_ORDERS: [[usize; 3]; 6] = [[0, 1, 2], [0, 2, 1], [1, 0, 2], [1, 2, 0], [2, 0, 1], [2, 1, 0]];

/// How often each direction is a column of the matrix; 0 is allowed, since (1) takes columns away.
pub type Counts = [usize; 4];

/// Three different directions are a basis, fewer span no space: any three of the four have determinant 1 or -1.
fn spans(counts: &Counts) -> bool {
    counts.iter().filter(|&&v| v > 0).count() >= 3
}

fn without(counts: &Counts, direction: usize) -> Counts {
    let mut fewer = *counts;
    fewer[direction] -= 1;
    fewer
}

/// One representation of x by the directions present; any serves (1). Direction 4 stands in for a missing axis.
fn representation(counts: &Counts, x: [i64; 3]) -> [i64; 4] {
    let fourth = (0..3).find(|&b| counts[b] == 0).map_or(0, |b| x[b]);
    [x[0] - fourth, x[1] - fourth, x[2] - fourth, fourth]
}

/// The numbers m! Q^m M(u/Q + l) for whole l; all l that are not held have the number 0.
pub struct Table {
    pub extents: [usize; 3],
    pub values: Vec<i64>,
}

impl Table {
    fn fill(counts: &Counts, value: impl Fn([i64; 3]) -> i64) -> Table {
        let extents = [0, 1, 2].map(|b| counts[b] + counts[3]);
        Table { extents, values: cubes(extents).map(value).collect() }
    }

    fn index(&self, l: [i64; 3]) -> Option<usize> {
        let inside = (0..3).all(|b| 0 <= l[b] && l[b] < self.extents[b] as i64);
        let [x, y, z] = l.map(|c| c as usize);
        inside.then(|| x + self.extents[0] * (y + self.extents[1] * z))
    }

    pub fn at(&self, l: [i64; 3]) -> i64 {
        self.index(l).map_or(0, |index| self.values[index])
    }

    fn add(&mut self, l: [i64; 3], term: i64) {
        let index = self.index(l).expect("a term is inside the support");
        self.values[index] += term;
    }

    /// The translates whose number is not 0: in a slanting support, few of its box.
    fn nonzero(&self) -> impl Iterator<Item = ([i64; 3], i64)> {
        cubes(self.extents).zip(self.values.iter().copied()).filter(|&(_, value)| value != 0)
    }
}

/// The unit cubes of a support, by their lowest corners, first axis fastest.
pub fn cubes(extents: [usize; 3]) -> impl Iterator<Item = [i64; 3]> {
    let [a, b, c] = extents.map(|e| e as i64);
    (0..c).flat_map(move |z| (0..b).flat_map(move |y| (0..a).map(move |x| [x, y, z])))
}

/// The box splines of all multiplicities that were asked for, at the translates of one point.
pub struct Translates {
    point: [i64; 3],
    divisor: i64,
    /// Four times the barycentre of the tetrahedron whose polynomial piece is evaluated.
    barycentre: [i64; 3],
    tables: HashMap<Counts, Table>,
}

impl Translates {
    /// The point is `point` / `divisor`, in the closed tetrahedron of the unit cube that `order` names.
    ///
    /// On a knot plane, (2) would depend on which faces its parallelepiped owns. The piece of one fixed tetrahedron is
    /// therefore evaluated in all terms: (1) is an identity of polynomials there, and the splines asked for are
    /// continuous, so that each tetrahedron that has the point gives the same number.
    pub fn new(point: [i64; 3], divisor: i64, order: [usize; 3]) -> Translates {
        assert!(point.iter().all(|&u| 0 <= u && u <= divisor), "the point is in the unit cube");
        assert!(order.windows(2).all(|o| point[o[0]] >= point[o[1]]), "the point is in the tetrahedron");
        let mut barycentre = [0; 3];
        for (rank, axis) in order.into_iter().enumerate() {
            barycentre[axis] = 3 - rank as i64;
        }
        Translates { point, divisor, barycentre, tables: HashMap::new() }
    }

    pub fn table(&mut self, counts: &Counts) -> &Table {
        self.prepare(counts);
        &self.tables[counts]
    }

    fn prepare(&mut self, counts: &Counts) {
        assert!(spans(counts), "the columns span the space");
        if self.tables.contains_key(counts) {
            return;
        }
        let table = if counts.iter().sum::<usize>() == 3 {
            Table::fill(counts, |l| self.parallelepiped(counts, l))
        } else {
            let removable = removable_directions(counts);
            for &i in &removable {
                self.prepare(&without(counts, i));
            }
            self.recur(counts, &removable)
        };
        self.tables.insert(*counts, table);
    }

    /// (2), read at the barycentre: constant on the tetrahedron, and off all knot planes there.
    fn parallelepiped(&self, counts: &Counts, l: [i64; 3]) -> i64 {
        let x = [0, 1, 2].map(|b| 4 * l[b] + self.barycentre[b]);
        let t = representation(counts, x);
        let inside = (0..4).all(|i| counts[i] == 0 || (0 <= t[i] && t[i] < 4));
        inside as i64
    }

    /// T_i at a translate, times Q.
    fn t(&self, counts: &Counts, l: [i64; 3], i: usize) -> i64 {
        let x = [0, 1, 2].map(|b| self.point[b] + self.divisor * l[b]);
        representation(counts, x)[i]
    }

    /// (1), by what each known number adds: to its own translate the first term, to that one d_i on the second.
    /// Columns that do not span the space belong to no function but to a density on a plane; off the plane that is 0.
    fn recur(&self, counts: &Counts, removable: &[usize]) -> Table {
        let mut table = Table::fill(counts, |_| 0);
        let t = |l: [i64; 3], i: usize| self.t(counts, l, i);
        for &i in removable {
            let count = counts[i] as i64 * self.divisor;
            for (l, value) in self.tables[&without(counts, i)].nonzero() {
                let next = [0, 1, 2].map(|b| l[b] + DIRECTIONS[i][b]);
                table.add(l, t(l, i) * value);
                table.add(next, (count - t(next, i)) * value);
            }
        }
        table
    }

    /// The number at one translate by the recurrence alone: no table is kept, and each term is evaluated anew.
    pub fn alone(&self, counts: &Counts, l: [i64; 3]) -> i64 {
        if (0..3).any(|b| l[b] < 0 || l[b] >= (counts[b] + counts[3]) as i64) {
            return 0;
        }
        if counts.iter().sum::<usize>() == 3 {
            return self.parallelepiped(counts, l);
        }
        let term = |i: usize| {
            let before = [0, 1, 2].map(|b| l[b] - DIRECTIONS[i][b]);
            let (fewer, t) = (without(counts, i), self.t(counts, l, i));
            t * self.alone(&fewer, l) + (counts[i] as i64 * self.divisor - t) * self.alone(&fewer, before)
        };
        (0..4).filter(|&i| removable(counts, i)).map(term).sum()
    }
}

/// Whether one column of a direction can go so that the others still span the space.
fn removable(counts: &Counts, direction: usize) -> bool {
    counts[direction] > 0 && spans(&without(counts, direction))
}

fn removable_directions(counts: &Counts) -> Vec<usize> {
    (0..4).filter(|&i| removable(counts, i)).collect()
}

#[cfg(test)]
mod tests {
    use super::*;
    use crate::literal;
    use crate::ratio::{Ratio, factorial};

    /// Compares all translates of a point with the literal recurrence in fractions.
    fn agrees(counts: Counts, point: [i64; 3], divisor: i64, order: [usize; 3]) {
        let degree = counts.iter().sum::<usize>() - 3;
        let scale = factorial(degree) * (divisor as i128).pow(degree as u32);
        let mut translates = Translates::new(point, divisor, order);
        let table = translates.table(&counts);
        for l in cubes(table.extents.map(|e| e + 1)) {
            let x = [0, 1, 2].map(|b| Ratio::new((point[b] + divisor * l[b]) as i128, divisor as i128));
            let expected = literal::box_spline(&counts, x) * Ratio::from(scale);
            assert_eq!(Ratio::from(table.at(l) as i128), expected, "{counts:?} {l:?}");
        }
    }

    #[test]
    fn equals_the_literal_recurrence_with_the_least_norm_representation() {
        for order in AXIS_ORDERS {
            let mut point = [0; 3];
            for (rank, axis) in order.into_iter().enumerate() {
                point[axis] = [6, 4, 1][rank];
            }
            for counts in [[1, 1, 1, 1], [2, 1, 1, 1], [1, 2, 1, 1], [1, 1, 1, 2]] {
                agrees(counts, point, 7, order);
            }
        }
        agrees([2, 1, 2, 1], [4, 6, 1], 7, [1, 0, 2]);
    }

    #[test]
    fn equals_it_where_a_direction_is_missing() {
        for counts in [[2, 1, 1, 0], [1, 2, 0, 2], [0, 1, 2, 1], [2, 0, 1, 1]] {
            agrees(counts, [5, 3, 2], 7, [0, 1, 2]);
        }
    }

    #[test]
    fn on_a_knot_plane_each_tetrahedron_gives_the_same_number() {
        for counts in [[1, 1, 1, 1], [2, 1, 1, 1], [1, 3, 1, 2], [2, 2, 2, 2]] {
            let numbers = |order| Translates::new([3, 3, 3], 5, order).table(&counts).values.clone();
            for order in AXIS_ORDERS {
                assert_eq!(numbers(order), numbers([0, 1, 2]));
            }
        }
    }

    #[test]
    fn the_translates_add_up_to_one() {
        let mut translates = Translates::new([4, 9, 2], 13, [1, 0, 2]);
        let sum: i64 = translates.table(&[3, 3, 3, 3]).values.iter().sum();
        assert_eq!(sum as i128, factorial(9) * 13i128.pow(9));
    }
}
