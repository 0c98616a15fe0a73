//! The tables: what the window's entries count, the shares at each local place, and the sum.

use crate::decimal::decimal;
use crate::library::Block;
use crate::parts::{Table, numbers, places, words};
use crate::placing::Placing;
use crate::sums::{Counted, LocalPlace, Share, Sums};

fn cells<const N: usize>(cells: [String; N]) -> Vec<String> {
    cells.into()
}

fn counted_row(block: &Block, counted: &Counted, denominator: i128) -> Vec<String> {
    let entry = counted.entry;
    let gap = block.is_gap(entry);
    let correction = if gap { "never measured".to_string() } else { block.correction(entry).to_string() };
    let parts = if counted.has_share { counted.parts.to_string() } else { "no share".to_string() };
    let percent =
        if counted.has_share { decimal(100 * counted.parts, denominator, 2) } else { String::new() };
    cells([words(&entry), correction, block.uncertainty(entry).to_string(), parts, percent])
}

/// How much entries of the window count at the point.
pub fn window(block: &Block, listed: &[&Counted], sums: &Sums) -> Table {
    let denominator = sums.figure.denominator;
    let added: i128 = sums.counted.iter().map(|counted| counted.parts).sum();
    let percent = decimal(100 * added, denominator, 2);
    let none = String::new;
    Table {
        columns: vec![
            places("entry"),
            numbers("correction"),
            numbers("uncertainty"),
            numbers("counts"),
            numbers("percent"),
        ],
        rows: listed.iter().map(|counted| counted_row(block, counted, denominator)).collect(),
        last: cells(["together".to_string(), none(), none(), added.to_string(), percent]),
        ..Table::default()
    }
}

/// The weights as they are multiplied, such as 4 x 4 x 3.
fn factors(place: &LocalPlace, placing: &Placing) -> String {
    let each = place.b.iter().zip(placing.weights).flat_map(|(&n, weight)| vec![weight.to_string(); n]);
    each.collect::<Vec<_>>().join(" x ")
}

fn share_row(s: &Share) -> Vec<String> {
    cells([
        words(&s.entry),
        words(&s.net_place),
        s.share.to_string(),
        s.correction.to_string(),
        (s.share * s.correction).to_string(),
        s.uncertainty.to_string(),
        (s.share * s.uncertainty).to_string(),
    ])
}

/// The shares at one local place, with what they blend to and add.
pub fn local_place(place: &LocalPlace, placing: &Placing) -> Table {
    let numbers_of = [place.shares_added(), place.blended_correction(), place.blended_uncertainty()];
    let [added, correction, uncertainty] = numbers_of.map(|number| number.to_string());
    let none = String::new;
    let weights = match place.b.iter().sum() {
        1 => place.weights.to_string(),
        _ => format!("{} = {}", factors(place, placing), place.weights),
    };
    let [to_n, to_u] = [place.to_numerator(), place.to_uncertainty()];
    Table {
        caption: format!("b {}, local place {}", words(&place.b), words(&place.local)),
        columns: vec![
            places("entry"),
            places("net place"),
            numbers("share"),
            numbers("correction"),
            numbers("x share"),
            numbers("uncertainty"),
            numbers("x share"),
        ],
        rows: place.shares.iter().map(share_row).collect(),
        last: cells(["blended".to_string(), none(), added, none(), correction, none(), uncertainty]),
        below: format!("ways {}, weights {weights}: adds {to_n} to N and {to_u} to U", place.ways),
    }
}

/// Each local place in a row; the last columns add up to N and to U.
pub fn sum<'a>(listed: impl Iterator<Item = &'a LocalPlace>, sums: &Sums) -> Table {
    let row = |place: &LocalPlace| {
        let [correction, uncertainty] = [place.blended_correction(), place.blended_uncertainty()];
        let numbers = [correction, uncertainty, place.ways, place.weights, place.product()];
        let added = [place.to_numerator(), place.to_uncertainty()];
        let texts = numbers.into_iter().chain(added).map(|number| number.to_string());
        [words(&place.b)].into_iter().chain(texts).collect()
    };
    let product: i128 = sums.places.iter().map(LocalPlace::product).sum();
    let none = String::new;
    let [n, u] = [sums.figure.numerator, sums.figure.uncertainty].map(|number| number.to_string());
    Table {
        columns: vec![
            places("b"),
            numbers("blended correction"),
            numbers("and uncertainty"),
            numbers("ways"),
            numbers("weights"),
            numbers("ways x weights"),
            numbers("to N"),
            numbers("to U"),
        ],
        rows: listed.map(row).collect(),
        last: cells(["together".to_string(), none(), none(), none(), none(), product.to_string(), n, u]),
        ..Table::default()
    }
}
