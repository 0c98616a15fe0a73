//! The window of a point.

use crate::hand::shape::Shape;

const NEVER_MEASURED: i16 = -32768;

/// The slices of a call, and where its window lies in them.
pub struct Window<'a> {
    pub shape: Shape,
    pub sizes: [usize; 3],
    pub cell: [usize; 3],
    pub net: &'a [u32],
    pub corrections: &'a [i16],
    pub uncertainties: &'a [u16],
}

/// An entry of the window; its share at a local place stands `base` after that place in the net.
pub struct Entry {
    pub base: usize,
    pub correction: i16,
    pub uncertainty: u16,
}

/// A row of the window: the index of its first entry in the block, and the base of its last.
struct Row {
    start: usize,
    base: usize,
}

impl Window<'_> {
    /// The index of the row's last entry in the block, for its distances from the cell on axes 2 and 3.
    pub fn row_end(&self, back2: usize, back3: usize) -> usize {
        let [n1, n2, _] = self.sizes;
        let [k1, k2, k3] = self.cell;
        k1 + n1 * (k2 - back2 + n2 * (k3 - back3))
    }

    fn rows(&self) -> impl Iterator<Item = Row> {
        let [e1, e2, e3] = self.shape.extents;
        let [_, stride2, stride3] = self.shape.strides();
        let row = move |back2, back3| Row {
            start: self.row_end(back2, back3) + 1 - e1,
            base: self.shape.degree * (stride2 * back2 + stride3 * back3),
        };
        (0..e3).rev().flat_map(move |back3| (0..e2).rev().map(move |back2| row(back2, back3)))
    }

    /// The lowest index of an entry that was never measured.
    pub fn gap(&self) -> Option<usize> {
        self.rows().find_map(|Row { start, .. }| {
            let mut row = self.corrections[start..][..self.shape.extents[0]].iter();
            row.position(|&correction| correction == NEVER_MEASURED).map(|position| start + position)
        })
    }

    /// Hands on each entry, in the block's order.
    pub fn each(&self, mut take: impl FnMut(Entry)) {
        let (m, e1) = (self.shape.degree, self.shape.extents[0]);
        for Row { start, base } in self.rows() {
            let numbers = self.corrections[start..][..e1].iter().zip(&self.uncertainties[start..][..e1]);
            for (back1, (&correction, &uncertainty)) in (0..e1).rev().zip(numbers) {
                take(Entry { base: base + m * back1, correction, uncertainty });
            }
        }
    }

    /// All entries in the block's order, each as what is made of it.
    pub fn list<T>(&self, make: impl Fn(Entry) -> T) -> Vec<T> {
        let mut list = Vec::with_capacity(self.shape.extents.iter().product());
        self.each(|entry| list.push(make(entry)));
        list
    }
}
