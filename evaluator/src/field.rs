//! Field files and blocks: docs/SPECIFICATION.md, 8.

use crate::random::Random;
use crate::unit::{Origin, Refusal, Sizes, Unit, refuse_if};

pub const NEVER_MEASURED: i16 = -32768;
pub const LARGEST_UNCERTAINTY: u16 = 32767;

/// The bytes of the sizes, and of sizes and origin.
const SIZES: usize = 6;
const HEADER: usize = 12;

/// A block with its two arrays; lent slices may be longer than its sizes ask for.
#[derive(Clone, PartialEq, Eq, Debug)]
pub struct Block {
    pub sizes: Sizes,
    pub origin: Origin,
    pub corrections: Vec<i16>,
    pub uncertainties: Vec<u16>,
}

impl Block {
    /// Measured entries, any allowed numbers, at the origin 0.
    pub fn random(sizes: Sizes, random: &mut Random) -> Block {
        let n = sizes.entries();
        let mut numbers = |below: u64| (0..n).map(|_| random.below(below)).collect::<Vec<u64>>();
        let corrections = numbers(65535).into_iter().map(|c| (c as i32 - 32767) as i16).collect();
        let uncertainties = numbers(32768).into_iter().map(|u| u as u16).collect();
        Block { sizes, origin: [0; 3], corrections, uncertainties }
    }

    pub fn constant(sizes: Sizes, correction: i16, uncertainty: u16) -> Block {
        let n = sizes.entries();
        Block { sizes, origin: [0; 3], corrections: vec![correction; n], uncertainties: vec![uncertainty; n] }
    }

    /// The same entries from another origin on.
    pub fn moved_to(self, origin: Origin) -> Block {
        Block { origin, ..self }
    }

    /// The field file of the block.
    pub fn file(&self) -> Vec<u8> {
        let sizes = self.sizes.axes().into_iter().flat_map(|n| (n as u16).to_le_bytes());
        let corrections = self.corrections.iter().flat_map(|c| c.to_le_bytes());
        let uncertainties = self.uncertainties.iter().flat_map(|u| u.to_le_bytes());
        let origin = self.origin.into_iter().flat_map(i16::to_le_bytes);
        sizes.chain(origin).chain(corrections).chain(uncertainties).collect()
    }
}

/// The same file in the layout before 0.7.0; none where it is shorter than sizes and origin.
pub fn without_origin(file: &[u8]) -> Option<Vec<u8>> {
    let entries = file.get(HEADER..)?;
    Some([&file[..SIZES], entries].concat())
}

/// What a file holds, or its refusal by 5, 6, 7, 8 or 16, which are checked in this order.
pub fn read(file: &[u8]) -> Result<Block, Refusal> {
    refuse_if(file.len() < HEADER, 5)?;
    let pairs: Vec<[u8; 2]> = file.chunks_exact(2).map(|pair| [pair[0], pair[1]]).collect();
    let size = |b: usize| usize::from(u16::from_le_bytes(pairs[b]));
    let sizes = Sizes::new([size(0), size(1), size(2)]).ok_or(Refusal::from(6))?;
    let n = sizes.entries();
    refuse_if(file.len() != HEADER + 4 * n, 7)?;
    let origin = [3, 4, 5].map(|number| i16::from_le_bytes(pairs[number]));
    let (corrections, uncertainties) = pairs[6..].split_at(n);
    let corrections = corrections.iter().map(|&pair| i16::from_le_bytes(pair)).collect();
    let uncertainties = uncertainties.iter().map(|&pair| u16::from_le_bytes(pair)).collect();
    let block = Block { sizes, origin, corrections, uncertainties };
    refuse_entry(8, &block, |_, uncertainty| uncertainty > LARGEST_UNCERTAINTY)?;
    refuse_entry(16, &block, |correction, uncertainty| correction == NEVER_MEASURED && uncertainty != 0)?;
    Ok(block)
}

/// Refuses where an entry, correction and uncertainty, is such, at the lowest index of one.
fn refuse_entry(number: u8, block: &Block, is_such: impl Fn(i16, u16) -> bool) -> Result<(), Refusal> {
    let mut entries = block.corrections.iter().zip(&block.uncertainties);
    match entries.position(|(&correction, &uncertainty)| is_such(correction, uncertainty)) {
        Some(index) => Err(Refusal::at(number, index)),
        None => Ok(()),
    }
}

/// A load into two slices of these lengths: the unit afterwards, and what the slices' first places hold.
pub fn load(unit: &Unit, file: &[u8], lengths: [usize; 2]) -> Result<(Unit, Block), Refusal> {
    let block = read(file)?;
    refuse_if(lengths.iter().any(|&length| length < block.sizes.entries()), 9)?;
    Ok((unit.with_block(block.sizes, block.origin), block))
}

#[cfg(test)]
mod tests {
    use super::*;

    /// Correction and uncertainty.
    const GAP: (i16, u16) = (NEVER_MEASURED, 0);
    const UNCERTAIN_GAP: (i16, u16) = (NEVER_MEASURED, 1);

    #[test]
    fn a_file_reads_as_the_block_it_was_made_from() {
        let block = Block::random(Sizes::new([2, 3, 4]).unwrap(), &mut Random::new(1));
        for origin in [[0; 3], [-1, 2, -3], [i16::MIN, i16::MAX, 256]] {
            let block = block.clone().moved_to(origin);
            assert_eq!(read(&block.file()), Ok(block));
        }
    }

    #[test]
    fn fields_are_little_endian() {
        let file = [1, 0, 1, 0, 1, 0, 0xff, 0x7f, 0, 0x80, 0xfd, 0xff, 0xfe, 0xff, 5, 1];
        let block = read(&file).unwrap();
        assert_eq!(block.origin, [32767, -32768, -3]);
        assert_eq!((block.corrections[0], block.uncertainties[0]), (-2, 261));
    }

    #[test]
    fn checks_in_order() {
        let file = |size: u8, rest: &[u8]| [&[size, 0, 1, 0, 1, 0, 1, 2, 3, 4, 5, 6][..], rest].concat();
        let number = |file: &[u8]| read(file).unwrap_err().number;
        for length in 0..HEADER {
            assert_eq!([0, 1].map(|size| number(&file(size, &[])[..length])), [5, 5]);
        }
        assert_eq!(number(&file(0, &[])), 6);
        assert_eq!(number(&file(0, &[0, 128, 1, 0])), 6);
        assert_eq!(number(&file(1, &[])), 7);
        assert_eq!(number(&file(1, &[0, 0, 0, 128, 10])), 7);
        assert_eq!(number(&file(1, &[0, 128, 1, 0, 10])), 7);
        assert_eq!(number(&file(1, &[0, 0, 0, 128])), 8);
        assert_eq!(number(&file(1, &[0, 128, 0, 128])), 8);
        assert_eq!(number(&file(1, &[0, 128, 1, 0])), 16);
        let good = file(1, &[0, 0, 0, 127]);
        assert_eq!(load(&Unit::EMPTY, &good, [1, 0]).unwrap_err().number, 9);
        assert!(load(&Unit::EMPTY, &good, [1, 1]).is_ok());
    }

    #[test]
    fn a_file_without_an_origin_is_refused() {
        for (n, number) in [([1, 1, 1], 5), ([2, 1, 1], 7), ([2, 3, 4], 7), ([64, 64, 1], 7)] {
            let old = without_origin(&Block::constant(Sizes::new(n).unwrap(), 7, 5).file()).unwrap();
            assert_eq!(read(&old), Err(Refusal::from(number)));
        }
        let bytes: Vec<u8> = (0..14).collect();
        assert_eq!(without_origin(&bytes), Some(vec![0, 1, 2, 3, 4, 5, 12, 13]));
        assert_eq!(without_origin(&bytes[..12]), Some(vec![0, 1, 2, 3, 4, 5]));
        assert_eq!(without_origin(&bytes[..11]), None);
    }

    #[test]
    fn a_load_sets_sizes_and_origin_together() {
        let before = Unit { has_net: true, v: [9; 4], has_block: true, n: [65, 0, 7], o: [7, -8, 9] };
        let block = Block::constant(Sizes::new([1, 2, 1]).unwrap(), 7, 5).moved_to([-32768, 0, 32767]);
        let (unit, loaded) = load(&before, &block.file(), [2; 2]).unwrap();
        assert_eq!(unit, Unit { n: [1, 2, 1], o: [-32768, 0, 32767], ..before });
        assert_eq!(loaded, block);
    }

    /// The refusal of a load of a row of entries into slices that hold so many.
    fn refused(entries: &[(i16, u16)], length: usize) -> Option<Refusal> {
        let (corrections, uncertainties) = entries.iter().copied().unzip();
        let sizes = Sizes::new([entries.len(), 1, 1]).unwrap();
        let block = Block { sizes, origin: [0; 3], corrections, uncertainties };
        load(&Unit::EMPTY, &block.file(), [length; 2]).err()
    }

    #[test]
    fn a_gap_has_no_uncertainty() {
        assert_eq!(refused(&[GAP, (-32767, 1), (0, 1), (32767, 32767)], 4), None);
        assert_eq!(refused(&[GAP, (7, 5), (NEVER_MEASURED, 32767), UNCERTAIN_GAP], 4), Some(Refusal::at(16, 2)));
        assert_eq!(refused(&[UNCERTAIN_GAP; 3], 3), Some(Refusal::at(16, 0)));
    }

    #[test]
    fn check_16_stands_between_8_and_9() {
        let (measured, gap) = ((7, 32768), UNCERTAIN_GAP);
        let large = [([gap, measured, gap], 1), ([measured, gap, gap], 0), ([gap, gap, (NEVER_MEASURED, 32768)], 2)];
        for length in [3, 2, 0] {
            for (entries, index) in large {
                assert_eq!(refused(&entries, length), Some(Refusal::at(8, index)));
            }
            assert_eq!(refused(&[(7, 5), gap, gap], length), Some(Refusal::at(16, 1)));
        }
        assert_eq!(refused(&[GAP; 3], 2), Some(Refusal::from(9)));
    }
}
