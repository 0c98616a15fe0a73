//! Nets: the Bézier coefficients of all tetrahedra, times m!, at the places of docs/SPECIFICATION.md, 3.1.

use crate::interpolation::{Interpolation, Quadruple};
use crate::recurrence::{AXIS_ORDERS, Translates, cubes};

pub const LARGEST_SUM: usize = 12;

/// v1 to v4, within their limits.
#[derive(Clone, Copy, PartialEq, Eq, Hash, PartialOrd, Ord, Debug)]
pub struct Multiplicities([usize; 4]);

impl Multiplicities {
    pub fn new(v: [usize; 4]) -> Option<Multiplicities> {
        let allowed = v.iter().all(|&v| (1..=LARGEST_SUM).contains(&v)) && v.iter().sum::<usize>() <= LARGEST_SUM;
        allowed.then_some(Multiplicities(v))
    }

    /// All multiplicities of a degree, in ascending order.
    pub fn of_degree(degree: usize) -> Vec<Multiplicities> {
        let mut all = Vec::new();
        for v1 in 1..=degree {
            for v2 in 1..=degree + 1 - v1 {
                for v3 in 1..=degree + 2 - v1 - v2 {
                    all.extend(Multiplicities::new([v1, v2, v3, degree + 3 - v1 - v2 - v3]));
                }
            }
        }
        all
    }

    pub fn counts(&self) -> [usize; 4] {
        self.0
    }

    pub fn degree(&self) -> usize {
        self.0.iter().sum::<usize>() - 3
    }

    pub fn extents(&self) -> [usize; 3] {
        [0, 1, 2].map(|b| self.0[b] + self.0[3])
    }

    pub fn widths(&self) -> [usize; 3] {
        self.extents().map(|e| self.degree() * e + 1)
    }

    pub fn places(&self) -> usize {
        self.widths().iter().product()
    }

    pub fn index(&self, place: [usize; 3]) -> usize {
        let widths = self.widths();
        place[0] + widths[0] * (place[1] + widths[1] * place[2])
    }

    pub fn place(&self, index: usize) -> [usize; 3] {
        let [w1, w2, _] = self.widths();
        [index % w1, index / w1 % w2, index / w1 / w2]
    }
}

pub struct Net {
    pub multiplicities: Multiplicities,
    pub numbers: Vec<u32>,
}

impl Net {
    pub fn of(multiplicities: Multiplicities) -> Net {
        nets(&[multiplicities]).remove(0)
    }

    pub fn at(&self, place: [usize; 3]) -> u32 {
        self.numbers[self.multiplicities.index(place)]
    }

    /// Place and number of each place that is not 0, in index order.
    pub fn listing(&self) -> impl Iterator<Item = ([usize; 3], u32)> {
        let nonzero = self.numbers.iter().enumerate().filter(|&(_, &number)| number != 0);
        nonzero.map(|(index, &number)| (self.multiplicities.place(index), number))
    }
}

/// A net in the making: a place is empty until a tetrahedron that has it is interpolated.
struct Draft {
    multiplicities: Multiplicities,
    numbers: Vec<Option<u32>>,
}

impl Draft {
    fn new(multiplicities: Multiplicities) -> Draft {
        Draft { multiplicities, numbers: vec![None; multiplicities.places()] }
    }

    /// Tetrahedra that share a place must have the same number there.
    fn write(&mut self, place: [usize; 3], number: i128) {
        let number = u32::try_from(number).expect("a net number fits 32 bits");
        let held = &mut self.numbers[self.multiplicities.index(place)];
        assert!(held.is_none_or(|held| held == number), "neighbouring tetrahedra differ at {place:?}");
        *held = Some(number);
    }

    fn finish(self) -> Net {
        let numbers = self.numbers.into_iter().map(|n| n.expect("each place of the box has a tetrahedron")).collect();
        Net { multiplicities: self.multiplicities, numbers }
    }
}

/// The corners of the tetrahedron of an axis order, from the cube's lowest corner on: the axes are gone along in turn.
fn corners(order: [usize; 3]) -> [[usize; 3]; 4] {
    let mut corners = [[0; 3]; 4];
    for step in 0..3 {
        corners[step + 1] = corners[step];
        corners[step + 1][order[step]] = 1;
    }
    corners
}

/// The nets of some multiplicities of one degree; they share the samples' recurrence and the interpolation.
pub fn nets(all: &[Multiplicities]) -> Vec<Net> {
    let Some(first) = all.first() else { return Vec::new() };
    assert!(all.iter().all(|v| v.degree() == first.degree()), "one degree");
    let interpolation = Interpolation::new(first.degree());
    let mut drafts: Vec<Draft> = all.iter().map(|&v| Draft::new(v)).collect();
    for order in AXIS_ORDERS {
        let samples = sample(all, &interpolation, order);
        for (draft, samples) in drafts.iter_mut().zip(samples) {
            interpolate(draft, &samples, &interpolation, order);
        }
    }
    drafts.into_iter().map(Draft::finish).collect()
}

/// For each of the multiplicities the values in all tetrahedra of one axis order, cube by cube.
fn sample(all: &[Multiplicities], interpolation: &Interpolation, order: [usize; 3]) -> Vec<Vec<i64>> {
    let count = interpolation.indices.len();
    let corners = corners(order);
    let cubes = |v: &Multiplicities| v.extents().iter().product::<usize>();
    let mut samples: Vec<Vec<i64>> = all.iter().map(|v| vec![0; cubes(v) * count]).collect();
    for (which, a) in interpolation.indices.iter().enumerate() {
        let weights = Interpolation::barycentric(a);
        let point = [0, 1, 2].map(|b| (0..4).map(|i| weights[i] * corners[i][b] as i64).sum());
        let mut translates = Translates::new(point, interpolation.divisor(), order);
        for (v, samples) in all.iter().zip(&mut samples) {
            let values = &translates.table(&v.counts()).values;
            for (cube, &value) in values.iter().enumerate() {
                samples[cube * count + which] = value;
            }
        }
    }
    samples
}

fn interpolate(draft: &mut Draft, samples: &[i64], interpolation: &Interpolation, order: [usize; 3]) {
    let degree = interpolation.degree;
    let corners = corners(order);
    // The domain point of (b0..b3) is the mean of the corners with these weights; times m it is a whole place.
    let local = |b: &Quadruple| [0, 1, 2].map(|axis| (0..4).map(|i| b[i] * corners[i][axis]).sum::<usize>());
    let locals: Vec<[usize; 3]> = interpolation.indices.iter().map(local).collect();
    let tetrahedra = samples.chunks(interpolation.indices.len());
    for (cube, samples) in cubes(draft.multiplicities.extents()).zip(tetrahedra) {
        for (number, local) in interpolation.coefficients(samples).into_iter().zip(&locals) {
            let place = [0, 1, 2].map(|b| degree * cube[b] as usize + local[b]);
            draft.write(place, number);
        }
    }
}

#[cfg(test)]
mod tests {
    use super::*;

    fn net(v: [usize; 4]) -> Net {
        Net::of(Multiplicities::new(v).unwrap())
    }

    #[test]
    fn the_figures_worked_by_hand() {
        let simple = net([1, 1, 1, 1]);
        assert_eq!(simple.multiplicities.widths(), [3, 3, 3]);
        assert_eq!(simple.listing().collect::<Vec<_>>(), [([1, 1, 1], 1)]);
        let first = net([2, 1, 1, 1]);
        assert_eq!(first.multiplicities.widths(), [7, 5, 5]);
        let figures = [([3, 2, 2], 2), ([2, 1, 1], 1), ([2, 3, 3], 0), ([4, 3, 3], 1)];
        for (place, number) in figures {
            assert_eq!(first.at(place), number, "{place:?}");
        }
        let fourth = net([1, 1, 1, 2]);
        assert_eq!((fourth.at([3, 3, 3]), fourth.at([2, 3, 4])), (2, 0));
    }

    #[test]
    fn there_are_495_multiplicities() {
        let counts: Vec<usize> = (1..=9).map(|m| Multiplicities::of_degree(m).len()).collect();
        assert_eq!(counts, [1, 4, 10, 20, 35, 56, 84, 120, 165]);
        assert_eq!(counts.iter().sum::<usize>(), 495);
    }

    #[test]
    fn limits_of_multiplicities() {
        for v in [[0, 1, 1, 1], [1, 1, 1, 10], [usize::MAX, usize::MAX, 1, 1]] {
            assert_eq!(Multiplicities::new(v), None);
        }
        assert!(Multiplicities::new([3, 3, 3, 3]).is_some());
    }

    #[test]
    fn the_largest_boxes_that_the_listing_serves() {
        for v in [[1, 1, 1, 4], [2, 2, 2, 2]] {
            let v = Multiplicities::new(v).unwrap();
            assert_eq!((v.widths(), v.places()), ([21, 21, 21], 9261));
        }
    }

    /// An exchange of two axes goes with the exchange of their multiplicities, by the definition.
    #[test]
    fn axes_can_be_exchanged() {
        let (one, other) = (net([3, 1, 2, 2]), net([1, 3, 2, 2]));
        for (place, number) in one.listing() {
            assert_eq!(other.at([place[1], place[0], place[2]]), number);
        }
    }

    /// The matrix of M_211 in section 5 of the article is the plane y = 1 of M_2111, z falling from row to row.
    #[test]
    fn the_articles_matrix() {
        let net = net([2, 1, 1, 1]);
        let printed = [[0, 0, 0, 1, 1, 0, 0], [0, 0, 1, 2, 1, 0, 0], [0, 0, 1, 1, 0, 0, 0]];
        let row = |z| [0, 1, 2, 3, 4, 5, 6].map(|x| net.at([x, 2, z]));
        assert_eq!([row(3), row(2), row(1)], printed);
        assert_eq!([row(4), row(0)], [[0; 7]; 2]);
    }
}
