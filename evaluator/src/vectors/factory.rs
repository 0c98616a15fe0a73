//! Factory calls: records of all kinds, and net slices of lengths around 2197 that held all kinds of numbers.

use super::scene::slice;
use super::{Shelf, shape};
use crate::calls::{factory, factory_shape};
use crate::formats::{join, numbers_digest};
use crate::net::Multiplicities;
use crate::unit::{Origin, Refusal, Unit};
use std::fmt;

const HEADER: &str = "\
# Factory calls. Each line is a word and what belongs to it.
# fill FIRST STEP      from here on, the net slice before a call holds (FIRST + STEP * index) modulo 2^32
# net V1 V2 V3 V4      from here on, it holds the defined net of these multiplicities, and 4294967295 past it
# set INDEX NUMBER     but for this number at this index
# factory RECORD LENGTH unit RECORD SHA256
# factory RECORD LENGTH refused NUMBER PLACE RECORD SHA256
#                      a call with a net slice of this length: the record handed in, the record answered, and
#                      the digest of the whole slice afterwards, past the net too, made as those of nets.txt;
#                      RECORD is HAS-NET V1 V2 V3 V4 HAS-BLOCK N1 N2 N3 O1 O2 O3, its flags any bytes: 1 says present
";

/// The record as C has it, with any bytes for flags: docs/SPECIFICATION.md, 12.1.
#[derive(Clone, Copy)]
struct Record {
    has_net: u8,
    v: [u8; 4],
    has_block: u8,
    n: [u16; 3],
    o: Origin,
}

impl Record {
    fn unit(&self) -> Unit {
        let Record { has_net, v, has_block, n, o } = *self;
        Unit { has_net: has_net == 1, v, has_block: has_block == 1, n, o }
    }

    /// The record of an answer, refused or not: every byte of the block half stays.
    fn after(self, answer: &Result<Unit, Refusal>) -> Record {
        answer.map_or(self, |unit| Record { has_net: unit.has_net.into(), v: unit.v, ..self })
    }
}

impl fmt::Display for Record {
    fn fmt(&self, f: &mut fmt::Formatter) -> fmt::Result {
        let Record { has_net, v, has_block, n, o } = self;
        write!(f, "{has_net} {} {has_block} {} {}", join(v), join(n), join(o))
    }
}

/// What the net slice holds before a call.
enum Held {
    Fill { first: u32, step: u32 },
    Net { v: Multiplicities, changes: Vec<(usize, u32)> },
}

impl Held {
    fn numbers(&self, length: usize, shelf: &Shelf) -> Vec<u32> {
        match self {
            Held::Fill { first, step } => {
                (0..length as u32).map(|index| first.wrapping_add(step.wrapping_mul(index))).collect()
            }
            Held::Net { v, changes } => {
                let mut numbers = shelf.net(*v).numbers.clone();
                changes.iter().for_each(|&(index, number)| numbers[index] = number);
                slice(&numbers, length)
            }
        }
    }
}

impl fmt::Display for Held {
    fn fmt(&self, f: &mut fmt::Formatter) -> fmt::Result {
        match self {
            Held::Fill { first, step } => writeln!(f, "fill {first} {step}"),
            Held::Net { v, changes } => {
                writeln!(f, "net {}", join(v.counts()))?;
                changes.iter().try_for_each(|(index, number)| writeln!(f, "set {index} {number}"))
            }
        }
    }
}

fn line(record: Record, length: usize, held: &Held, shelf: &Shelf) -> String {
    let mut numbers = held.numbers(length, shelf);
    let answer = factory(&record.unit(), &mut numbers, |v| shelf.net(v));
    let result = answer.map_or_else(|refusal| refusal.to_string(), |_| "unit".to_string());
    format!("factory {record} {length} {result} {} {}\n", record.after(&answer), numbers_digest(&numbers))
}

const fn record(has_net: u8, v: [u8; 4], has_block: u8, n: [u16; 3], o: Origin) -> Record {
    Record { has_net, v, has_block, n, o }
}

/// Nets that are none, stale, disallowed or the factory's already, present and not; blocks that are none,
/// present, not present and out of limits, with origins of all kinds; flags of other bytes than 0 and 1.
const RECORDS: [Record; 11] = [
    record(0, [0; 4], 0, [0; 3], [0; 3]),
    record(1, [2, 1, 3, 1], 1, [3, 4, 5], [-7, 0, 300]),
    record(1, [2, 2, 2, 1], 1, [16, 16, 16], [-8, -8, -8]),
    record(0, [3, 3, 3, 3], 0, [5, 6, 7], [1, -1, 0]),
    record(0, [2, 2, 2, 1], 1, [64, 1, 64], [-32768, 0, 32767]),
    record(1, [1, 2, 2, 2], 0, [0, 1, 65535], [32767, -32768, -1]),
    record(1, [0, 255, 9, 9], 1, [0, 65535, 65], [256, -256, 255]),
    record(2, [5, 5, 2, 1], 88, [64, 64, 2], [0, 0, -32768]),
    record(88, [10, 1, 1, 1], 2, [8, 8, 8], [-1, -1, -1]),
    record(255, [255; 4], 255, [65535; 3], [-1; 3]),
    record(17, [34, 51, 68, 85], 102, [30600, 39321, 48042], [-8773, -52, 8669]),
];

/// Around no element, one, and the places of the net, then past them by more than a guard zone has.
const LENGTHS: [usize; 8] = [0, 1, 2, 2196, 2197, 2198, 2300, 9261];

/// The most places of a net.
const LONGEST: usize = 753_571;

/// Numbers of which each bit changes from place to place.
const JUNK: Held = Held::Fill { first: 305_419_896, step: 2_654_435_769 };

/// Nets that a slice may have held: the factory's, those with its multiplicities in another order, and some with
/// fewer and with more places.
pub fn shapes() -> Vec<Multiplicities> {
    let others = [[2, 2, 1, 2], [2, 1, 2, 2], [1, 2, 2, 2], [1, 1, 1, 1], [3, 1, 2, 1], [2, 2, 2, 2]];
    [factory_shape()].into_iter().chain(others.map(shape)).collect()
}

/// One number throughout; a defined net; the factory's but for another number at its first, middle or last place.
fn other_contents() -> Vec<Held> {
    let fills = [0, 1, u32::MAX].map(|first| Held::Fill { first, step: 0 });
    let nets = shapes().into_iter().map(|v| Held::Net { v, changes: Vec::new() });
    let damaged = [(0, 1), (1098, 0), (2196, u32::MAX)];
    let damaged = damaged.map(|change| Held::Net { v: factory_shape(), changes: vec![change] });
    fills.into_iter().chain(nets).chain(damaged).collect()
}

/// Each record with each length over junk, the longest slice, and records by turns over all else.
pub fn text(shelf: &Shelf) -> String {
    let mut text = format!("{HEADER}{JUNK}");
    for record in RECORDS {
        text.extend(LENGTHS.map(|length| line(record, length, &JUNK, shelf)));
    }
    text.push_str(&line(RECORDS[1], LONGEST, &JUNK, shelf));
    let mut records = RECORDS.into_iter().cycle();
    for held in other_contents() {
        text.push_str(&held.to_string());
        text.extend(LENGTHS.iter().zip(&mut records).map(|(&length, record)| line(record, length, &held, shelf)));
    }
    text
}

#[cfg(test)]
mod tests {
    use super::*;
    use crate::net::Net;

    fn shelf() -> Shelf {
        Shelf { nets: shapes().into_iter().map(|v| (v, Net::of(v))).collect() }
    }

    #[test]
    fn a_copied_net_has_the_digest_of_the_net_and_a_refused_slice_its_own() {
        let shelf = &shelf();
        let defined = numbers_digest(&shelf.net(factory_shape()).numbers);
        for held in other_contents().iter().chain([&JUNK]) {
            assert!(
                line(RECORDS[1], 2197, held, shelf).ends_with(&format!(" unit 1 2 2 2 1 1 3 4 5 -7 0 300 {defined}\n"))
            );
            let kept = numbers_digest(&held.numbers(2196, shelf));
            let refused = format!(" refused 4 0 1 2 1 3 1 1 3 4 5 -7 0 300 {kept}\n");
            assert!(line(RECORDS[1], 2196, held, shelf).ends_with(&refused));
        }
    }

    #[test]
    fn a_record_keeps_every_byte_that_is_not_set() {
        let (first, last) = (RECORDS[0], RECORDS[10]);
        let set = |record: Record| record.after(&Ok(record.unit().with_net(factory_shape()))).to_string();
        assert_eq!(set(first), "1 2 2 2 1 0 0 0 0 0 0 0");
        assert_eq!(set(last), "1 2 2 2 1 102 30600 39321 48042 -8773 -52 8669");
        assert_eq!(
            last.after(&Err(Refusal::from(4))).to_string(),
            "17 34 51 68 85 102 30600 39321 48042 -8773 -52 8669"
        );
    }
}
