//! Whole nets in clear, and prints of program `shares`.

use super::{Shelf, shape};
use crate::formats::{join, listing};
use crate::net::Multiplicities;
use crate::shares::Prints;

const NETS_HEADER: &str = "\
# Whole nets. Each begins with its multiplicities, its box and its degree; all places without a line are 0.
# net V1 V2 V3 V4
# box W1 W2 W3 degree M
# X Y Z NUMBER
";

const SHARES_HEADER: &str = "\
# What program shares prints for each order.
# order TEXT           the order as typed, without a final newline; the print follows
";

/// Parted by commas; the first is empty.
const ORDERS: &str = "\
,1,2,3,4,11,12,13,14,21,22,31,41,44,132,213,444,1234,4321,11112,\
4444,12344,11111111,12341234,44444444,\
111111111,44444444444444,xxxxxxxxx,\
0,5,9,1x,1 2, 1,11110";

pub fn shapes() -> Vec<Multiplicities> {
    let all = [
        [1, 1, 1, 1],
        [2, 1, 1, 1],
        [1, 2, 1, 1],
        [1, 1, 2, 1],
        [1, 1, 1, 2],
        [3, 1, 1, 1],
        [2, 1, 1, 2],
        [1, 2, 2, 1],
        [2, 2, 2, 1],
        [1, 1, 1, 4],
        [2, 2, 2, 2],
        [1, 3, 1, 3],
    ];
    all.map(shape).to_vec()
}

pub fn nets(shelf: &Shelf) -> String {
    let whole = |v: Multiplicities| format!("net {}\n{}", join(v.counts()), listing(shelf.net(v)));
    std::iter::once(NETS_HEADER.to_string()).chain(shapes().into_iter().map(whole)).collect()
}

pub fn shares() -> String {
    let mut prints = Prints::default();
    let print = |order: &str| String::from_utf8(prints.print_with_order(order.as_bytes())).expect("plain text");
    std::iter::once(SHARES_HEADER.to_string()).chain(ORDERS.split(',').map(print)).collect()
}
