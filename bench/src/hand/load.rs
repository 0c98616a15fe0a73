//! Loads a field file.

use super::shape::allowed_sizes;
use super::{Refusal, refuse, refuse_at};
use crate::torskavel::Unit;

/// Of sizes and origin.
const HEADER: usize = 12;
const LARGEST_UNCERTAINTY: u16 = 32767;
/// As it is read, without a sign.
const NEVER_MEASURED: u16 = -32768i16 as u16;

/// Checks 8 and 16 of a file's corrections and uncertainties.
type Check = fn(&[u8], &[u8]) -> Result<(), Refusal>;

pub type Load = fn(Unit, &[u8], &mut [i16], &mut [u16]) -> Result<Unit, Refusal>;

/// Entry by entry. Checks 5, 6, 7, 8, 16, 9.
pub fn load(
    unit: Unit,
    file: &[u8],
    corrections: &mut [i16],
    uncertainties: &mut [u16],
) -> Result<Unit, Refusal> {
    load_by(entry_by_entry, unit, file, corrections, uncertainties)
}

/// One look goes over all entries at once, and entry by entry only where one of them is refused.
pub fn load_tuned(
    unit: Unit,
    file: &[u8],
    corrections: &mut [i16],
    uncertainties: &mut [u16],
) -> Result<Unit, Refusal> {
    load_by(all_at_once, unit, file, corrections, uncertainties)
}

fn load_by(
    check: Check,
    unit: Unit,
    file: &[u8],
    corrections: &mut [i16],
    uncertainties: &mut [u16],
) -> Result<Unit, Refusal> {
    let Some((header, numbers)) = file.split_at_checked(HEADER) else { return refuse(5) };
    let word = |at: usize| u16::from_le_bytes([header[at], header[at + 1]]);
    let [n1, n2, n3] = [0, 2, 4].map(word);
    let [o1, o2, o3] = [6, 8, 10].map(|at| word(at) as i16);
    let Some(sizes) = allowed_sizes([n1, n2, n3]) else { return refuse(6) };
    let n: usize = sizes.iter().product();
    if numbers.len() != 4 * n {
        return refuse(7);
    }
    let (first, second) = numbers.split_at(2 * n);
    check(first, second)?;
    if corrections.len() < n || uncertainties.len() < n {
        return refuse(9);
    }
    for (place, word) in corrections.iter_mut().zip(words(first)) {
        *place = word as i16;
    }
    for (place, word) in uncertainties.iter_mut().zip(words(second)) {
        *place = word;
    }
    Ok(Unit { has_block: 1, n1, n2, n3, o1, o2, o3, ..unit })
}

/// The little-endian numbers of some bytes.
fn words(bytes: &[u8]) -> impl Iterator<Item = u16> {
    bytes.as_chunks().0.iter().map(|&word| u16::from_le_bytes(word))
}

fn entry_by_entry(corrections: &[u8], uncertainties: &[u8]) -> Result<(), Refusal> {
    if let Some(index) = words(uncertainties).position(|uncertainty| uncertainty > LARGEST_UNCERTAINTY) {
        return refuse_at(8, index);
    }
    let mut entries = words(corrections).zip(words(uncertainties));
    match entries.position(|(correction, uncertainty)| correction == NEVER_MEASURED && uncertainty != 0) {
        Some(index) => refuse_at(16, index),
        None => Ok(()),
    }
}

/// Joins the bits of all uncertainties, and those of the uncertainties of gaps.
fn all_at_once(corrections: &[u8], uncertainties: &[u8]) -> Result<(), Refusal> {
    let (mut all, mut of_gaps) = (0, 0);
    for (correction, uncertainty) in words(corrections).zip(words(uncertainties)) {
        all |= uncertainty;
        of_gaps |= if correction == NEVER_MEASURED { uncertainty } else { 0 };
    }
    if all > LARGEST_UNCERTAINTY || of_gaps != 0 {
        entry_by_entry(corrections, uncertainties)
    } else {
        Ok(())
    }
}
