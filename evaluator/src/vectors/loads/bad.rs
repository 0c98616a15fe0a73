//! Files that 5, 6, 7 or 8 refuses.

use super::{origin, random, with_gaps, with_uncertainties};
use crate::field::NEVER_MEASURED;

pub fn files() -> Vec<Vec<u8>> {
    [too_short(), without_sizes(), of_wrong_length(), of_large_uncertainty()].concat()
}

/// Files that 5 refuses: too few bytes, with sizes that are allowed and that are not.
pub fn too_short() -> Vec<Vec<u8>> {
    let mut files = vec![vec![1], vec![1, 0, 1, 0, 1], vec![0; 5]];
    for header in [[1, 0, 1, 0, 1, 0, 2, 0, 255, 255, 0, 128], [0, 0, 1, 0, 65, 0, 0, 0, 0, 0, 0, 0]] {
        files.extend((0..header.len()).map(|length| header[..length].to_vec()));
    }
    files
}

/// Files that 6 refuses: sizes out of limits, with lengths that fit and that do not. The last has gaps with an
/// uncertainty.
pub fn without_sizes() -> Vec<Vec<u8>> {
    let bytes = |n: [u16; 3], origin: [i16; 3]| {
        let n = n.into_iter().flat_map(u16::to_le_bytes);
        n.chain(origin.into_iter().flat_map(i16::to_le_bytes)).collect::<Vec<u8>>()
    };
    let mut files = Vec::new();
    for (number, n) in
        [[0, 1, 1], [1, 0, 1], [1, 1, 0], [65, 1, 1], [1, 65, 1], [257, 1, 1], [1, 1, 256], [64, 64, 2], [65535; 3]]
            .into_iter()
            .enumerate()
    {
        let header = bytes(n, origin(number));
        files.push([&header[..], &[0; 4]].concat());
        files.push(header);
    }
    let header = &bytes([65, 1, 1], [1; 3])[..];
    files.push([header, &[0; 4 * 65]].concat());
    files.push([header, &NEVER_MEASURED.to_le_bytes().repeat(65), &[5, 0].repeat(65)].concat());
    files
}

/// Files of a wrong length: 7, also where an uncertainty is too large, or a gap has one. The last has six bytes more,
/// as many as an origin: without its origin it is loaded, with other numbers.
pub fn of_wrong_length() -> Vec<Vec<u8>> {
    let block = random([2, 1, 2], 16).moved_to([1, -1, 256]);
    let file = block.file();
    let large = with_uncertainties(block.clone(), &[(0, 65535)]).file();
    let uncertain_gap = with_gaps(block, &[(0, 5)]).file();
    let shorter = |file: &[u8], by: usize| file[..file.len() - by].to_vec();
    let longer = |file: &[u8], tail: &[u8]| [file, tail].concat();
    vec![
        file[..12].to_vec(),
        file[..13].to_vec(),
        shorter(&file, 1),
        shorter(&file, 4),
        longer(&file, b"\n"),
        longer(&file, &[0; 4]),
        longer(&large, b"\n"),
        shorter(&uncertain_gap, 1),
        longer(&uncertain_gap, b"\n"),
        longer(&file, &[0; 6]),
    ]
}

/// Uncertainties above 32767 in the first, a middle, the last and two entries, and in a gap; then after, before and
/// between gaps with an uncertainty that is not too large.
pub fn of_large_uncertainty() -> Vec<Vec<u8>> {
    let with = |uncertainties: &[(usize, u16)], gaps: &[(usize, u16)]| {
        with_gaps(with_uncertainties(random([2, 3, 1], 17), uncertainties), gaps).moved_to([-1, 32767, 0]).file()
    };
    vec![
        with(&[(0, 32768)], &[]),
        with(&[(2, 65535)], &[]),
        with(&[(5, 32768)], &[]),
        with(&[(4, 32768), (1, 50000)], &[]),
        with(&[], &[(3, 40000)]),
        with(&[(4, 40000)], &[(1, 5)]),
        with(&[(1, 40000)], &[(4, 5)]),
        with(&[], &[(0, 5), (3, 40000), (5, 1)]),
    ]
}
