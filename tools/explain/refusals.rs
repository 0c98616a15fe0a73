//! Refusals in words: what is wrong, whom it concerns, and what to do.

use crate::library::{Net, Refusal, place_of};
use crate::parts::{Part, bracketed, words};
use crate::request::Question;
use crate::torskavel::{self, refused};
use crate::walk::{Outcome, Walk};
use crate::{divisors, old_layout, outside, uncertain_gaps, valuing};

const FITTER: &str = "the fitter";
const SURVEYOR: &str = "the surveyor";
const FIRMWARE: &str = "firmware";

struct Words {
    wrong: String,
    concerns: &'static str,
    to_do: String,
}

fn words_of(wrong: impl Into<String>, concerns: &'static str, to_do: impl Into<String>) -> Words {
    Words { wrong: wrong.into(), concerns, to_do: to_do.into() }
}

pub fn is_one(number: u32) -> bool {
    matches!(number, refused::ORDER_LENGTH..=refused::PLACING | refused::NO_NET..=refused::SHARES)
}

/// An index of the table as its entry; a unit with another table may have named one that is not there.
fn entry(walk: &Walk, place: usize) -> String {
    match walk.head {
        Some(sizes) if place < sizes.iter().product() => {
            format!("entry {}", bracketed(&place_of(place, sizes)))
        }
        _ => format!("entry number {place}, which this file does not have,"),
    }
}

fn net_place(walk: &Walk, place: usize) -> String {
    match &walk.net {
        Ok(net) if place < net.places() => format!("net place {}", bracketed(&place_of(place, net.widths()))),
        _ => format!("net place number {place}, which this net does not have"),
    }
}

fn of_order(walk: &Walk, number: u32, place: usize) -> Words {
    let no_order = "the factory's net is copied without an order: find out what other net was to be built, and \
                    give its order in place of factory";
    if number == refused::ORDER_LENGTH {
        let to_do =
            walk.source.either(no_order, "shorten the order: with 8 repeats the degree is 9, the highest");
        return words_of("the order has more than 8 repeats", FITTER, to_do);
    }
    let byte = match walk.source.byte(place).map(|byte| byte.wrapping_add(b'0')) {
        Some(byte) if byte.is_ascii_graphic() => format!("is '{}', and not", char::from(byte)),
        _ => "is not".to_string(),
    };
    let to_do = "write each repeat as 1, 2, 3 or 4 with nothing between, as 132; a controller sends the \
                 bytes 1 to 4, not the digits' codes 49 to 52";
    let wrong = format!("byte {place} of the order, counted from 0, {byte} 1, 2, 3 or 4");
    words_of(wrong, FITTER, walk.source.either(no_order, to_do))
}

fn of_room(walk: &Walk) -> Words {
    let wants = walk.net.as_ref().map_or(String::new(), |net| format!(", {} for this net", net.places()));
    let no_work = walk.source.either("; to copy the factory's net no work slice is wanted", "");
    let to_do = format!("lend W1 x W2 x W3 places for the net and for each work slice{wants}{no_work}");
    words_of("the memory lent for the net, or for the work on it, is too small for its box", FIRMWARE, to_do)
}

fn of_net(walk: &Walk, number: u32, place: usize) -> Words {
    let source = walk.source;
    match number {
        refused::MULTIPLICITIES => words_of(
            "a multiplicity is 0, or the four add up to more than 12",
            FITTER,
            source.either(
                "hand in 2 2 2 1, which the factory's net has",
                "hand in the four multiplicities that came with the net",
            ),
        ),
        refused::NET_LENGTH => of_room(walk),
        refused::NET_DIFFERS => words_of(
            format!("the net differs from the defined one, first at {}", net_place(walk, place)),
            FITTER,
            source
                .either("have the factory's net copied again", "get the net again, or build it by its order"),
        ),
        refused::NO_NET => words_of(
            "the unit has no net",
            FITTER,
            source.either("have the factory's net copied", "build a net by its order, or have one inspected"),
        ),
        _ => words_of(
            "the net lent for this point is damaged: its shares do not add up",
            FIRMWARE,
            format!(
                "inspect the net (14 tells where it differs) and {} again; the memory may be bad",
                source.either("have the factory's copied", "build it")
            ),
        ),
    }
}

/// 5 and 7, which old files meet too.
fn of_length(walk: &Walk, number: u32) -> Words {
    let (wrong, to_do) = match number {
        refused::FILE_HEADER => {
            let wrong = "the file has under 12 bytes, too few for its sizes and its origin";
            (wrong.to_string(), "it is cut off, or not a field file: copy it again")
        }
        _ => {
            let wants = walk.head.map_or(String::new(), |sizes| {
                format!(": {} want {} bytes", words(&sizes), torskavel::file_length(sizes.map(|n| n as u16)))
            });
            let to_do = "it is cut off, or something is appended to it: copy it again";
            (format!("the file's length does not fit its sizes{wants}"), to_do)
        }
    };
    words_of(wrong, FITTER, old_layout::to_do(walk, number).unwrap_or(to_do.to_string()))
}

fn of_file(walk: &Walk, number: u32, place: usize) -> Words {
    match number {
        refused::FILE_HEADER | refused::FILE_LENGTH => of_length(walk, number),
        refused::SIZES => words_of(
            "a size is 0 or above 64, or there are more than 4096 entries",
            FITTER,
            "it is another kind of file, or its first 6 bytes are damaged: copy it again",
        ),
        refused::UNCERTAINTY => words_of(
            format!("{} has an uncertainty above 32767", entry(walk, place)),
            SURVEYOR,
            "send the file back: that uncertainty was written wrongly",
        ),
        refused::UNCERTAIN_GAP => {
            let wrong = uncertain_gaps::wrong(walk, place, &entry(walk, place));
            words_of(wrong, SURVEYOR, uncertain_gaps::TO_DO)
        }
        refused::NO_BLOCK => words_of("the unit has no table", FITTER, "load the field file"),
        _ => {
            let wants = walk
                .head
                .map_or(String::new(), |n| format!(", {} for this file", n.iter().product::<usize>()));
            let to_do = format!("lend n1 x n2 x n3 places for each of the two lists{wants}");
            words_of("the memory lent for the table is too small", FIRMWARE, to_do)
        }
    }
}

fn of_divisor(walk: &Walk, number: u32) -> Words {
    let degree = walk.net.as_ref().ok().map(Net::degree);
    words_of(divisors::wrong(degree, number), FIRMWARE, divisors::to_do(degree, number))
}

fn of_point(walk: &Walk, number: u32, place: usize) -> Words {
    match number {
        refused::OUTSIDE => words_of("the point is not inside the table", FITTER, outside::to_do(walk)),
        refused::UNMEASURED => {
            let elsewhere = match &walk.block {
                Ok(block) if place < block.entries() && !block.is_gap(place_of(place, block.sizes)) => {
                    "; in this file it is measured, so the unit has another"
                }
                _ => "",
            };
            let wrong = format!(
                "{} was never measured, and the point's window has it{elsewhere}",
                entry(walk, place)
            );
            let to_do =
                "have that entry measured; every entry of the window is wanted, also one without a share";
            words_of(wrong, SURVEYOR, to_do)
        }
        refused::PLACING if outside::nowhere_inside(walk) => {
            words_of(valuing::WRONG, FITTER, outside::to_do(walk))
        }
        refused::PLACING => words_of(valuing::WRONG, FIRMWARE, valuing::to_do(walk)),
        _ => of_divisor(walk, number),
    }
}

fn tell(walk: &Walk, Refusal { number, place }: Refusal, all: bool, parts: &mut Vec<Part>) {
    let Words { wrong, concerns, to_do } = match number {
        refused::ORDER_LENGTH | refused::ORDER_BYTE => of_order(walk, number, place),
        refused::MULTIPLICITIES | refused::NET_LENGTH | refused::NET_DIFFERS => of_net(walk, number, place),
        refused::NO_NET | refused::SHARES => of_net(walk, number, place),
        refused::DIVISOR..=refused::UNMEASURED | refused::LIVE_DENOMINATOR | refused::PLACING => {
            of_point(walk, number, place)
        }
        _ => of_file(walk, number, place),
    };
    let mut line = |text: String| parts.push(Part::Line(text));
    line(format!("{number}: {wrong}"));
    match number {
        refused::FILE_HEADER | refused::FILE_LENGTH => {
            old_layout::beside(walk, number).into_iter().for_each(&mut line)
        }
        refused::OUTSIDE => outside::told(walk).into_iter().for_each(&mut line),
        refused::LIVE_DENOMINATOR => line(divisors::LOOKED_AT.to_string()),
        refused::UNCERTAIN_GAP => uncertain_gaps::beside(walk, place, all).into_iter().for_each(&mut line),
        refused::PLACING => valuing::beside(walk).into_iter().for_each(&mut line),
        _ => {}
    }
    line(format!("concerns {concerns}"));
    line(format!("to do: {to_do}"));
}

/// Every refusal of the walk: of the net, of the file, or of the point; or the one that was asked about, told
/// once where net or file meet it too.
pub fn of(walk: &Walk) -> Vec<Refusal> {
    let refused = [walk.net.as_ref().err(), walk.block.as_ref().err()].into_iter().flatten().copied();
    let mut refusals: Vec<_> = refused.collect();
    match (&walk.outcome, walk.question) {
        (_, Question::Refusal { number, place }) => {
            let asked = Refusal { number, place };
            if !refusals.contains(&asked) {
                refusals.push(asked);
            }
        }
        (Outcome::Refused(refusal), _) if refusals.is_empty() => refusals.push(*refusal),
        _ => {}
    }
    refusals
}

pub fn told(walk: &Walk, all: bool, parts: &mut Vec<Part>) {
    let refusals = of(walk);
    if !refusals.is_empty() {
        parts.push(Part::Heading("Refused".to_string()));
    }
    for refusal in refusals {
        tell(walk, refusal, all, parts);
    }
}
