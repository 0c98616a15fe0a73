//! The window listed once, with correction and uncertainty of an entry in one number, so that a share is
//! multiplied once. The sum of shares stands apart; where it is m!, the two others stay within their bits.

use super::bernstein::Blended;
use super::checks::Checked;
use super::place::Placing;
use super::window::Window;
use super::{Refusal, Sums};

pub fn answer<'a, S: Sums>(call: &impl Checked<'a>, by: &S) -> Result<S::Answer, Refusal> {
    let (window, placing) = call.checked::<S>()?;
    if window.shape.degree <= 8 {
        in_64_bits(&window, &placing, by)
    } else {
        in_128_bits(&window, &placing, by)
    }
}

/// Where an entry's shares begin, and its pair with the correction above so many bits.
fn list(window: &Window, bits: u32) -> Vec<(usize, i64)> {
    let pair = |correction, uncertainty| (i64::from(correction) << bits) + i64::from(uncertainty);
    window.list(|entry| (entry.base, pair(entry.correction, entry.uncertainty)))
}

/// The sum of uncertainties is at most 40320×65535, below 2^32, that of corrections at most half of it.
fn in_64_bits<S: Sums>(window: &Window, placing: &Placing, by: &S) -> Result<S::Answer, Refusal> {
    let list = list(window, 32);
    by.value(&window.shape, placing, |local| {
        let net = &window.net[local..];
        let (mut shares, mut sum) = (0, 0i64);
        for &(base, pair) in &list {
            let share = net[base];
            shares += u64::from(share);
            sum = sum.wrapping_add(i64::from(share).wrapping_mul(pair));
        }
        Blended { shares, correction: sum >> 32, uncertainty: sum as u64 % (1 << 32) }
    })
}

/// The sum of uncertainties is at most 362880×65535, below 2^40.
fn in_128_bits<S: Sums>(window: &Window, placing: &Placing, by: &S) -> Result<S::Answer, Refusal> {
    let list = list(window, 40);
    by.value(&window.shape, placing, |local| {
        let net = &window.net[local..];
        let (mut shares, mut sum) = (0, 0);
        for &(base, pair) in &list {
            let share = net[base];
            shares += u64::from(share);
            sum += i128::from(share) * i128::from(pair);
        }
        Blended { shares, correction: (sum >> 40) as i64, uncertainty: sum as u64 % (1 << 40) }
    })
}
