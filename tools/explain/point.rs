//! A point as the controller sends it, and as it is read from the table's origin.

/// Three coordinates over a divisor that is not 0.
#[derive(Clone, Copy)]
pub struct Point {
    pub coordinates: [i32; 3],
    pub divisor: u32,
    pub origin: [i16; 3],
}

impl Point {
    /// None where the divisor is 0.
    pub fn new(coordinates: [i32; 3], divisor: u32, origin: [i16; 3]) -> Option<Point> {
        (divisor != 0).then_some(Point { coordinates, divisor, origin })
    }

    /// The coordinate of a position that is so many entries from the origin.
    pub fn coordinate(&self, axis: usize, entries: usize) -> i64 {
        (i64::from(self.origin[axis]) + entries as i64) * i64::from(self.divisor)
    }

    /// The coordinate less that of the origin; negative before the origin.
    pub fn read(&self, axis: usize) -> i64 {
        i64::from(self.coordinates[axis]) - self.coordinate(axis, 0)
    }

    pub fn is_before(&self, axis: usize) -> bool {
        self.read(axis) < 0
    }

    pub fn is_before_on_some_axis(&self) -> bool {
        (0..3).any(|axis| self.is_before(axis))
    }
}
