//! Coordinates divided by the degree, for the step rule.

pub const DIRECTIONS: [[usize; 3]; 4] = [[1, 0, 0], [0, 1, 0], [0, 0, 1], [1, 1, 1]];

/// (m−1)×k and u of a coordinate.
#[derive(Clone, Copy)]
pub struct Split {
    pub base: isize,
    pub rest: isize,
}

impl Split {
    /// The coordinate of the lowered place: the remainder is less by 1 where it is above the pivot.
    pub fn lowered(self, pivot: isize) -> isize {
        self.base + self.rest - isize::from(self.rest > pivot)
    }
}

/// The coordinates of an axis of the new box, each less the direction's step.
pub fn splits(width: usize, degree: usize, step: usize) -> Vec<Split> {
    let m = degree as isize;
    let split = |x: isize| Split { base: (m - 1) * x.div_euclid(m), rest: x.rem_euclid(m) };
    (0..width as isize).map(|x| split(x - step as isize)).collect()
}
