//! What is told of 5 and 7 where the file may be an old one, and of 7 where the library may be: before 0.7.0
//! field files had no origin, and the corrections began just behind the sizes.

use crate::library::Block;
use crate::torskavel::{MAX_ENTRIES, MAX_SIZE, refused};
use crate::walk::Walk;

/// First the copy: a new file that lost six bytes is as long, and converted it may be loaded.
const CONVERT: &str = "copy it again; only if it stays so long, and was written for a library before 0.7.0, \
                       put six zero bytes behind its first six";
const OF_OLDER: &str = "copy it to the unit again; for an older library firmware acts: it brings 0.7.0";

/// The entries of a file that is refused by this number, whose sizes are allowed, and which is as long as an
/// old file of these.
fn old_entries(walk: &Walk, number: u32) -> Option<usize> {
    let met = walk.block.as_ref().err()?.number;
    let sizes = walk.head?;
    let entries = sizes.iter().product();
    let allowed = sizes.iter().all(|&size| size <= MAX_SIZE.into()) && (1..=MAX_ENTRIES).contains(&entries);
    (met == number && allowed && walk.file_length == Some(6 + 4 * entries)).then_some(entries)
}

/// The table of a file that a unit refused by 7 and that is loaded here.
fn loaded_here<'a>(walk: &'a Walk, number: u32) -> Option<&'a Block> {
    walk.block.as_ref().ok().filter(|_| number == refused::FILE_LENGTH)
}

/// What is said beside 5 or 7.
pub fn beside(walk: &Walk, number: u32) -> Vec<String> {
    if let Some(entries) = old_entries(walk, number) {
        let length = format!("6 + 4 x {entries} = {} bytes", 6 + 4 * entries);
        let before = format!("before 0.7.0 a file had no origin, and one of these sizes had {length}");
        let lost = "or it is a new one that lost six bytes: converted, it would give wrong figures";
        return vec![format!("it may be an old file: {before}"), lost.to_string()];
    }
    let older = "its library is older than 0.7.0 and takes files without an origin alone";
    let passes = format!("this file passes: the unit was given another, or {older}");
    loaded_here(walk, number).map(|_| passes).into_iter().collect()
}

/// What to do, where it is not what any other file wants.
pub fn to_do(walk: &Walk, number: u32) -> Option<String> {
    if old_entries(walk, number).is_some() {
        return Some(CONVERT.to_string());
    }
    let acts = match loaded_here(walk, number)?.origin {
        [0, 0, 0] => "or leaves out the six zero bytes of the origin",
        _ => "since no older one can take this origin",
    };
    Some(format!("{OF_OLDER}, {acts}"))
}
