//! Builds: orders, units and slice lengths.

use super::{UNIT_WORDS, shape};
use crate::calls::{build, multiplicities};
use crate::formats::join;
use crate::unit::{Sizes, Unit};

const HEADER: &str = "\
# Builds. Each line is a call and its result; the net of a made build is that of nets.txt.
# build UNIT NET WORK COUNT BYTES unit UNIT
# build UNIT NET WORK COUNT BYTES refused NUMBER PLACE
#                      NET and WORK are the slices' lengths, COUNT and BYTES the order
";

/// Orders that are built, some of them one net in several orders.
const GOOD: [&[u8]; 19] = [
    &[],
    &[1],
    &[2],
    &[3],
    &[4],
    &[1, 3, 2],
    &[2, 3, 1],
    &[3, 2, 1],
    &[1, 2, 3, 4],
    &[4, 3, 2, 1],
    &[2, 4, 1, 3],
    &[4, 4, 4],
    &[1, 4, 1, 4, 1],
    &[4, 1, 1, 1, 4],
    &[1, 1, 1, 1, 1, 1, 1, 1],
    &[2, 2, 2, 2, 2, 2, 2, 2],
    &[3, 3, 3, 3, 3, 3, 3, 3],
    &[4, 3, 2, 1, 1, 2, 3, 4],
    &[1, 2, 3, 4, 1, 2, 3, 4],
];

/// Orders that 1 or 2 refuses.
const BAD: [&[u8]; 10] = [
    &[1, 2, 3, 4, 1, 2, 3, 4, 1],
    &[0, 0, 0, 0, 0, 0, 0, 0, 0],
    &[4; 20],
    &[0],
    &[5],
    &[49],
    &[255],
    &[1, 2, 3, 4, 5],
    &[1, 0, 4, 255],
    &[4, 4, 4, 4, 4, 4, 4, 13],
];

fn line(unit: Unit, order: &[u8], lengths: [usize; 2]) -> String {
    let result = match build(&unit, order, lengths) {
        Ok(unit) => format!("unit {unit}"),
        Err(refusal) => refusal.to_string(),
    };
    let order: Vec<usize> = std::iter::once(order.len()).chain(order.iter().map(|&byte| byte.into())).collect();
    format!("build {unit} {} {} {result}\n", join(lengths), join(order))
}

fn units() -> [Unit; 3] {
    let sizes = Sizes::new([3, 4, 5]).expect("within the limits");
    let full = Unit::EMPTY.with_net(shape([2, 1, 3, 1])).with_block(sizes, [-7, 0, 300]);
    let o = [-32768, 32767, -1];
    [Unit::EMPTY, full, Unit { has_net: true, v: [0, 255, 9, 9], has_block: true, n: [0, 65535, 65], o }]
}

pub fn text() -> String {
    let mut text = format!("{HEADER}{UNIT_WORDS}");
    for (number, order) in GOOD.into_iter().enumerate() {
        let places = multiplicities(order).expect("a good order").places();
        let unit = units()[number % units().len()];
        let lengths = [[places; 2], [places + 3, places + 1], [places - 1, places], [places, places - 1], [0, 0]];
        text.extend(lengths.map(|lengths| line(unit, order, lengths)));
    }
    for order in BAD {
        text.extend(units().map(|unit| line(unit, order, [30_000; 2])));
        text.push_str(&line(Unit::EMPTY, order, [0, 0]));
    }
    text
}
