//! Field files, good and bad, each also as it was before 0.7.0, without an origin.

mod bad;

use super::{UNIT_WORDS, origins, shape};
use crate::field::{Block, NEVER_MEASURED, load, read, without_origin};
use crate::formats::{join, number_lines};
use crate::random::Random;
use crate::unit::{Origin, Sizes, Unit, told};

const HEADER: &str = "\
# Loads. Each line is a word and what belongs to it.
# file                 from here on, the file is what the lines b say
# b BYTES              bytes as pairs of hexadecimal digits
# old                  from here on, it is that file without its bytes 6 to 11, as it was before origins
# c NUMBERS            the corrections that a load of the file writes, in index order
# u NUMBERS            the uncertainties that it writes
# load UNIT C U unit UNIT
# load UNIT C U refused NUMBER PLACE
#                      a load of the file into slices of lengths C and U, and the unit afterwards
";

/// A load of a file into slices of these lengths.
type Case = (Unit, [usize; 2]);

fn scene(file: &[u8], cases: &[Case]) -> String {
    let bytes: Vec<String> = file.iter().map(|byte| format!("{byte:02x}")).collect();
    format!("file\n{}{}", number_lines("b", &bytes), loads(file, cases))
}

/// What a load writes, where the file is not refused, and the loads.
fn loads(file: &[u8], cases: &[Case]) -> String {
    let written = read(file).map_or(String::new(), |block| {
        number_lines("c", &block.corrections) + &number_lines("u", &block.uncertainties)
    });
    let line = |(unit, lengths): &Case| {
        let loaded = load(unit, file, *lengths).map(|(unit, _)| format!("unit {unit}"));
        format!("load {unit} {} {}\n", join(lengths), told(&loaded))
    };
    std::iter::once(written).chain(cases.iter().map(line)).collect()
}

/// The file, and what becomes of it without an origin.
fn with_old(file: &[u8], cases: &[Case]) -> String {
    let old = without_origin(file).map(|old| format!("old\n{}", loads(&old, cases)));
    scene(file, cases) + &old.unwrap_or_default()
}

fn sizes(n: [usize; 3]) -> Sizes {
    Sizes::new(n).expect("within the limits")
}

fn full_unit() -> Unit {
    Unit::EMPTY.with_net(shape([2, 1, 3, 1])).with_block(sizes([3, 4, 5]), [-7, 0, 300])
}

/// Slices that are just long enough, longer, and too short in each way.
fn cases(n: usize) -> Vec<Case> {
    let o = [-32768, 32767, -1];
    let broken = Unit { has_net: true, v: [0, 255, 9, 9], has_block: true, n: [0, 65535, 65], o };
    let units = [Unit::EMPTY, full_unit(), broken];
    let mut cases = units.map(|unit| (unit, [n; 2])).to_vec();
    cases.extend([[n + 2, n + 1], [n - 1, n], [n, n - 1], [0, 0]].map(|lengths| (full_unit(), lengths)));
    cases
}

fn random(n: [usize; 3], seed: u64) -> Block {
    Block::random(sizes(n), &mut Random::new(seed))
}

/// The block with these uncertainties at these indices.
fn with_uncertainties(mut block: Block, uncertainties: &[(usize, u16)]) -> Block {
    for &(index, uncertainty) in uncertainties {
        block.uncertainties[index] = uncertainty;
    }
    block
}

/// The block with gaps at these indices, each with its uncertainty.
fn with_gaps(mut block: Block, gaps: &[(usize, u16)]) -> Block {
    for &(index, _) in gaps {
        block.corrections[index] = NEVER_MEASURED;
    }
    with_uncertainties(block, gaps)
}

/// The block of the points worked by hand: docs/SPECIFICATION.md, 14.6.
fn figures() -> Block {
    let mut block = Block::constant(sizes([2, 2, 2]), 0, 5);
    (block.corrections[0], block.corrections[1]) = (100, -40);
    block
}

/// Measured entries with uncertainties: corrections next to that of a gap, with one of its bytes, with all of its bits
/// but one, or with its bytes exchanged.
fn nearly_gaps() -> Block {
    let mut block = random([3, 3, 1], 18);
    block.corrections.copy_from_slice(&[-32767, 0, 128, -32640, -32512, -16384, 256, 32767, -32766]);
    block
}

/// Blocks with the least and greatest numbers, the longest file, and gaps, all without an uncertainty.
fn good() -> Vec<Block> {
    let gaps = with_gaps(random([3, 2, 2], 11), &[(4, 0), (5, 0), (6, 0)]);
    let mut edges = Block::constant(sizes([1, 4, 1]), -1, 0);
    edges.corrections[..3].copy_from_slice(&[-32767, 32767, 256]);
    edges.uncertainties[..3].copy_from_slice(&[32767, 255, 256]);
    let single = Block::constant(sizes([1, 1, 1]), 7, 5);
    let any = [random([1, 1, 64], 12), random([64, 1, 1], 13), random([5, 3, 4], 14), random([64, 64, 1], 15)];
    let unmeasured = Block::constant(sizes([2, 1, 2]), NEVER_MEASURED, 0);
    let more_gaps = [with_gaps(figures(), &[(1, 0)]), unmeasured, nearly_gaps()];
    [vec![single, figures(), gaps, edges], any.to_vec(), more_gaps.to_vec()].concat()
}

/// Blocks that 16 refuses. A gap with an uncertainty, the least, the greatest or one whose low byte is 0, is the
/// first, a middle or the last entry, or past index 255; or several are, or all. Before it are gaps without, and
/// nearly gaps.
fn uncertain_gaps() -> Vec<Block> {
    let block = random([3, 1, 2], 19);
    let gaps: [&[(usize, u16)]; 5] =
        [&[(0, 1)], &[(2, 32767)], &[(5, 256)], &[(5, 1), (3, 300), (4, 0)], &[(0, 0), (1, 0), (2, 5), (4, 5)]];
    let mut blocks = gaps.map(|gaps| with_gaps(block.clone(), gaps)).to_vec();
    blocks.extend([
        with_gaps(random([3, 2, 2], 11), &[(4, 19958), (5, 0), (6, 32767)]),
        with_gaps(figures(), &[(1, 5)]),
        with_gaps(nearly_gaps(), &[(8, 255)]),
        with_gaps(random([7, 7, 6], 20), &[(255, 0), (293, 1)]),
        Block::constant(sizes([1, 1, 1]), NEVER_MEASURED, 1),
        Block::constant(sizes([2, 2, 1]), NEVER_MEASURED, 5),
    ]);
    blocks
}

/// One of the origins, by turns.
fn origin(number: usize) -> Origin {
    let all = origins::origins();
    all[number % all.len()].0
}

/// Blocks that are loaded, and such as 16 refuses, from each of the origins.
fn blocks() -> Vec<Block> {
    let blocks = [good(), uncertain_gaps()].concat();
    blocks.into_iter().enumerate().map(|(number, block)| block.moved_to(origin(number))).collect()
}

/// An entry without an uncertainty from each of the origins; those with -32768 have bytes there that would be a gap's.
fn singles() -> Vec<Block> {
    origins::origins().into_iter().map(|(origin, _)| Block::constant(sizes([1, 1, 1]), 7, 0).moved_to(origin)).collect()
}

pub fn text() -> String {
    let mut text = format!("{HEADER}{UNIT_WORDS}");
    for block in blocks() {
        text.push_str(&with_old(&block.file(), &cases(block.sizes.entries())));
    }
    for block in singles() {
        text.push_str(&scene(&block.file(), &[(full_unit(), [1; 2])]));
    }
    for file in bad::files() {
        text.push_str(&with_old(&file, &[(full_unit(), [4096; 2]), (Unit::EMPTY, [0, 0])]));
    }
    text
}

#[cfg(test)]
mod tests {
    use super::*;
    use std::collections::BTreeSet;

    /// The numbers by which files are refused, and 0 where one is not.
    fn numbers(files: impl IntoIterator<Item = Vec<u8>>) -> BTreeSet<u8> {
        files.into_iter().map(|file| read(&file).err().map_or(0, |refusal| refusal.number)).collect()
    }

    #[test]
    fn files_are_refused_as_their_lists_say() {
        assert_eq!(numbers(good().iter().chain(&singles()).map(Block::file)), BTreeSet::from([0]));
        assert_eq!(numbers(uncertain_gaps().iter().map(Block::file)), BTreeSet::from([16]));
        assert_eq!(numbers(bad::too_short()), BTreeSet::from([5]));
        assert_eq!(numbers(bad::without_sizes()), BTreeSet::from([6]));
        assert_eq!(numbers(bad::of_wrong_length()), BTreeSet::from([7]));
        assert_eq!(numbers(bad::of_large_uncertainty()), BTreeSet::from([8]));
    }

    #[test]
    fn without_its_origin_no_file_is_loaded() {
        let old = |files: Vec<Vec<u8>>| numbers(files.iter().filter_map(|file| without_origin(file)));
        assert_eq!(old(blocks().iter().map(Block::file).collect()), BTreeSet::from([5, 7]));
        assert_eq!(old(bad::of_large_uncertainty()), BTreeSet::from([7]));
        assert_eq!(old(bad::without_sizes()), BTreeSet::from([5, 6]));
    }
}
