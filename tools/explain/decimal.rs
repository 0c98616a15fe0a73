//! Fractions as decimals.

/// The decimals of a position and of a figure in tenths of a micrometre.
pub const DECIMALS: u32 = 3;

/// A fraction with at most so many decimals: without zeros at the end where it is exact, else with all of
/// them, rounded, halves away from 0.
pub fn decimal(numerator: i128, denominator: i128, places: u32) -> String {
    let scale = 10i128.pow(places);
    let scaled = numerator.abs() * scale;
    let rounded = (2 * scaled + denominator) / (2 * denominator);
    let sign = if numerator < 0 && rounded != 0 { "-" } else { "" };
    let digits = format!("{:0width$}", rounded % scale, width = places as usize);
    let exact = scaled % denominator == 0;
    let digits = if exact { digits.trim_end_matches('0') } else { &digits };
    let point = if digits.is_empty() { "" } else { "." };
    format!("{sign}{}{point}{digits}", rounded / scale)
}

/// A decimal that says so where it was rounded.
pub fn rounded(numerator: i128, denominator: i128, places: u32) -> String {
    let exact = numerator * 10i128.pow(places) % denominator == 0;
    format!("{}{}", if exact { "" } else { "about " }, decimal(numerator, denominator, places))
}
