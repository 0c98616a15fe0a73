//! What is told of 16: entries that a file marks as never measured, and gives an uncertainty all the same.

use crate::library::place_of;
use crate::parts::{bracketed, listed};
use crate::torskavel::{NEVER_MEASURED, refused};
use crate::walk::{HEAD, Walk};

pub const TO_DO: &str = "send the file back: if the entry was never measured, set its uncertainty to 0; if \
                         it was, put its correction in";

const LOADED_BEFORE: &str = "a unit that an earlier version loaded with this file answers as ever: such an \
                             uncertainty changes no figure";

/// The 16-bit numbers of bytes, the low byte first.
fn numbers(bytes: &[u8]) -> impl Iterator<Item = u16> {
    bytes.chunks_exact(2).map(|pair| u16::from_le_bytes([pair[0], pair[1]]))
}

/// Such entries by their index, with their uncertainties; none where the file's length does not fit.
pub fn found(file: &[u8], sizes: Option<[usize; 3]>) -> Vec<(usize, u16)> {
    let entries: usize = sizes.map_or(0, |sizes| sizes.iter().product());
    if file.len() != HEAD + 4 * entries {
        return Vec::new();
    }
    let (corrections, uncertainties) = file[HEAD..].split_at(2 * entries);
    let pairs = numbers(corrections).zip(numbers(uncertainties)).enumerate();
    let uncertain = pairs.filter(|&(_, (c, u))| c.cast_signed() == NEVER_MEASURED && u != 0);
    uncertain.map(|(index, (_, uncertainty))| (index, uncertainty)).collect()
}

/// What is wrong with the entry of a place, which is named so.
pub fn wrong(walk: &Walk, place: usize, entry: &str) -> String {
    if let Some((_, uncertainty)) = walk.uncertain_gaps.iter().find(|&&(index, _)| index == place) {
        return format!(
            "{entry} is marked as never measured, but the file gives it the uncertainty {uncertainty}"
        );
    }
    let elsewhere = match walk.head {
        Some(sizes) if place < sizes.iter().product() => {
            "; in this file it is not so: the unit was given another"
        }
        _ => "",
    };
    format!("{entry} is marked as never measured, but has an uncertainty{elsewhere}")
}

/// What is said beside it, where the file has such an entry there; of units that were loaded with the file only
/// where nothing else is wrong with it.
pub fn beside(walk: &Walk, place: usize, all: bool) -> Vec<String> {
    let (gaps, Some(sizes)) = (&walk.uncertain_gaps, walk.head) else { return Vec::new() };
    if !gaps.iter().any(|&(index, _)| index == place) {
        return Vec::new();
    }
    let entry = |&(index, uncertainty): &(usize, u16)| {
        format!("{} with {uncertainty}", bracketed(&place_of(index, sizes)))
    };
    let list = listed(&gaps.iter().map(entry).collect::<Vec<_>>(), all);
    let in_all = match gaps.len() {
        1 => "it is the only such entry".to_string(),
        count => format!("{count} such entries in all: {list}"),
    };
    let mut said = vec![in_all];
    if walk.block.as_ref().is_err_and(|refusal| refusal.number == refused::UNCERTAIN_GAP) {
        said.push(LOADED_BEFORE.to_string());
    }
    said
}
