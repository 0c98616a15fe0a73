//! What the program `shares` prints: docs/SPECIFICATION.md, 13.

use crate::calls;
use crate::formats::listing;
use crate::net::{Multiplicities, Net};
use std::collections::HashMap;

const LARGEST_BOX: usize = 9261;

/// A digit is its direction; any other byte counts as no direction, which is 2's fault.
fn direction(byte: &u8) -> u8 {
    if byte.is_ascii_digit() { byte - b'0' } else { 0 }
}

/// The prints for many orders; the orders of one net share it.
#[derive(Default)]
pub struct Prints {
    listings: HashMap<Multiplicities, String>,
}

impl Prints {
    /// The print for all that is typed, of which a final newline is ignored.
    pub fn print(&mut self, typed: &[u8]) -> String {
        let order: Vec<u8> = typed.strip_suffix(b"\n").unwrap_or(typed).iter().map(direction).collect();
        match calls::multiplicities(&order) {
            Err(refusal) => format!("refused {}\n", refusal.number),
            Ok(v) if v.places() > LARGEST_BOX => "refused 4\n".to_string(),
            Ok(v) => self.listings.entry(v).or_insert_with(|| listing(&Net::of(v))).clone(),
        }
    }

    /// The print with a line before it that names the order.
    pub fn print_with_order(&mut self, typed: &[u8]) -> Vec<u8> {
        [b"order ", typed, b"\n", self.print(typed).as_bytes()].concat()
    }
}

#[cfg(test)]
mod tests {
    use super::*;

    #[test]
    fn the_whole_print_of_no_input() {
        assert_eq!(Prints::default().print(b""), "box 3 3 3 degree 1\n1 1 1 1\n");
    }

    #[test]
    fn refusals_in_order() {
        let mut prints = Prints::default();
        let cases: [(&[u8], u8); 7] =
            [(b"111111111", 1), (b"xxxxxxxxx", 1), (b"0", 2), (b"5", 2), (b"\x01", 2), (b"4444x", 2), (b"4444", 4)];
        for (typed, number) in cases {
            assert_eq!(prints.print(typed), format!("refused {number}\n"));
        }
        for typed in [b"444".as_slice(), b"1234", b"4321"] {
            assert!(prints.print(typed).starts_with("box 21 21 21 degree "));
        }
    }

    #[test]
    fn one_final_newline_is_ignored() {
        let mut prints = Prints::default();
        for typed in [b"".as_slice(), b"132", b"4444", b"111111111"] {
            assert_eq!(prints.print(&[typed, b"\n"].concat()), prints.print(typed));
        }
        assert_eq!(prints.print(b"\n\n"), "refused 2\n");
        assert_eq!(prints.print(b"11111111\n\n"), "refused 1\n");
    }

    #[test]
    fn how_many_multiplicities_are_served() {
        let all = (1..=9).flat_map(Multiplicities::of_degree);
        assert_eq!(all.filter(|v| v.places() <= LARGEST_BOX).count(), 69);
    }

    #[test]
    fn the_longest_print() {
        let print = Prints::default().print(b"11112");
        assert_eq!((print.len(), print.lines().count()), (32076, 3108));
    }
}
