//! Point calls that share a lent net and a lent block, and their text.

use super::{Shelf, UNIT_WORDS};
use crate::field::Block;
use crate::formats::{join, number_lines};
use crate::lent;
use crate::net::Multiplicities;
use crate::point::{self, Call, Exact, coordinate};
use crate::random::Random;
use crate::unit::Unit;
use std::fmt;

const LENT_WORDS: &str = "\
# net V1 V2 V3 V4      from here on, the lent net is the defined one of these multiplicities
# set INDEX NUMBER     but for this number at this index
# block                from here on, the lent block is what the lines c and u say
# c NUMBERS            corrections, in index order
# u NUMBERS            uncertainties, in index order
";

const CALL_WORDS: &str = "\
#                      a call with this unit; NET, C, U are the slices' lengths: so many of the lent numbers are handed
#                      in, and a net slice longer than the lent net holds 4294967295 past it
";

/// The top of a file of such calls: the forms of their lines, and what is to be said of these alone.
pub fn header(title: &str, forms: &str, own_words: &str) -> String {
    format!("# {title}. Each line is a word and numbers.\n{LENT_WORDS}{forms}{UNIT_WORDS}{CALL_WORDS}{own_words}")
}

/// The slice of this length that begins with the lent numbers; what no call may read is filled in past them.
pub fn slice(numbers: &[u32], length: usize) -> Vec<u32> {
    let mut slice = numbers.to_vec();
    slice.resize(length, u32::MAX);
    slice
}

/// One call, apart from the numbers lent to it.
#[derive(Clone, Copy)]
pub struct Case {
    pub unit: Unit,
    /// The lengths of net, corrections and uncertainties.
    pub lengths: [usize; 3],
    pub coordinates: [i32; 3],
    pub divisor: u32,
}

impl fmt::Display for Case {
    fn fmt(&self, f: &mut fmt::Formatter) -> fmt::Result {
        let Case { unit, lengths, coordinates, divisor } = self;
        write!(f, "{unit} {} {} {divisor}", join(lengths), join(coordinates))
    }
}

pub struct Scene {
    pub net: Multiplicities,
    pub changes: Vec<(usize, u32)>,
    pub block: Block,
    pub cases: Vec<Case>,
}

impl Scene {
    pub fn new(net: Multiplicities, block: Block) -> Scene {
        Scene { net, changes: Vec::new(), block, cases: Vec::new() }
    }

    /// A unit that holds the scene's net and block, and slices as long as these.
    pub fn case(&self, coordinates: [i32; 3], divisor: u32) -> Case {
        let unit = Unit::EMPTY.with_net(self.net).with_block(self.block.sizes, self.block.origin);
        let lengths = [self.net.places(), self.block.corrections.len(), self.block.uncertainties.len()];
        Case { unit, lengths, coordinates, divisor }
    }

    pub fn ask(&mut self, coordinates: [i32; 3], divisor: u32) {
        self.cases.push(self.case(coordinates, divisor));
    }

    /// The lowest cell inside.
    pub fn first_cell(&self) -> [usize; 3] {
        self.net.extents().map(|e| e - 1)
    }

    pub fn last_cell(&self) -> [usize; 3] {
        self.block.sizes.axes().map(|n| n - 1)
    }

    pub fn any_cell(&self, random: &mut Random) -> [usize; 3] {
        let (first, last) = (self.first_cell(), self.last_cell());
        [0, 1, 2].map(|b| random.between(first[b], last[b]))
    }

    /// A coordinate for each axis from cell and remainder.
    pub fn at(&self, cell: [usize; 3], remainder: [u32; 3], divisor: u32) -> [i32; 3] {
        [0, 1, 2].map(|b| coordinate(self.block.origin[b], cell[b], remainder[b].into(), divisor))
    }

    /// The point moved to the far faces of these axes.
    pub fn moved_far(&self, mut point: [i32; 3], axes: &[usize], divisor: u32) -> [i32; 3] {
        let far = self.at(self.block.sizes.axes(), [0; 3], divisor);
        for &b in axes {
            point[b] = far[b];
        }
        point
    }

    pub fn lent_numbers(&self, shelf: &Shelf) -> Vec<u32> {
        let mut numbers = shelf.net(self.net).numbers.clone();
        for &(index, number) in &self.changes {
            numbers[index] = number;
        }
        numbers
    }

    pub fn call(&self, case: &Case) -> Call<'_> {
        let Case { unit, lengths: [net_length, c, u], coordinates, divisor } = *case;
        let (corrections, uncertainties) = (&self.block.corrections[..c], &self.block.uncertainties[..u]);
        Call { unit, net_length, corrections, uncertainties, coordinates, divisor }
    }

    /// The answer from the lent numbers; where these are the unit's own net, the recurrence must say the same.
    pub fn answer(&self, case: &Case, lent_numbers: &[u32]) -> Exact {
        let call = self.call(case);
        let answer = lent::answer(&call, &slice(lent_numbers, call.net_length));
        if self.lends_net_of(&call.unit) {
            assert_eq!(answer, point::answer(&call), "the net and the recurrence agree");
        }
        answer
    }

    /// Whether the lent numbers are those of the unit's own net, where it has one.
    pub fn lends_net_of(&self, unit: &Unit) -> bool {
        self.changes.is_empty() && unit.net().is_none_or(|v| v == self.net)
    }

    /// What is lent.
    pub fn lent_text(&self) -> String {
        let mut text = format!("net {}\n", join(self.net.counts()));
        for (index, number) in &self.changes {
            text.push_str(&format!("set {index} {number}\n"));
        }
        text.push_str("block\n");
        text.push_str(&number_lines("c", &self.block.corrections));
        text.push_str(&number_lines("u", &self.block.uncertainties));
        text
    }

    /// What is lent, then what is made of each case: its number, the case and its exact answer are handed on.
    pub fn text(&self, shelf: &Shelf, lines: impl Fn(usize, &Case, Exact) -> String) -> String {
        let lent_numbers = self.lent_numbers(shelf);
        let mut text = self.lent_text();
        for (number, case) in self.cases.iter().enumerate() {
            text.push_str(&lines(number, case, self.answer(case, &lent_numbers)));
        }
        text
    }
}
