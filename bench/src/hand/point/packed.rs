//! The window listed once, with several sums in one word, from one multiplication.
//!
//! The sum of shares stands lowest. Where no share has a bit above those of m!, their sum stays within its
//! bits, and where it is m!, the sums above it stay within theirs. A larger share is refused, whatever the
//! word became.

use super::bernstein::Blended;
use super::checks::Checked;
use super::place::Placing;
use super::window::Window;
use super::{Refusal, Sums};

/// With a share above m! the shares add up to more, and 23 applies.
const TOO_MUCH: Blended = Blended { shares: u64::MAX, correction: 0, uncertainty: 0 };

pub fn answer<'a, S: Sums>(call: &impl Checked<'a>, by: &S) -> Result<S::Answer, Refusal> {
    let (window, placing) = call.checked::<S>()?;
    if window.shape.degree <= 5 { three(&window, &placing, by) } else { two(&window, &placing, by) }
}

/// All three sums. A share has 7 bits, the sum of at most 1000 has 17; that of uncertainties is at most
/// 120×65535 and has 23, that of corrections 23 with its sign.
fn three<S: Sums>(window: &Window, placing: &Placing, by: &S) -> Result<S::Answer, Refusal> {
    let list = window.list(|entry| {
        let (correction, uncertainty) = (i64::from(entry.correction), i64::from(entry.uncertainty));
        (entry.base, ((correction << 40) + (uncertainty << 17) + 1) as u64)
    });
    by.value(&window.shape, placing, |local| {
        let net = &window.net[local..];
        let (mut word, mut bits) = (0u64, 0);
        for &(base, factor) in &list {
            let share = net[base];
            bits |= share;
            word = word.wrapping_add(u64::from(share).wrapping_mul(factor));
        }
        if bits >> 7 != 0 {
            return TOO_MUCH;
        }
        Blended {
            shares: word % (1 << 17),
            correction: word as i64 >> 40,
            uncertainty: (word >> 17) % (1 << 23),
        }
    })
}

/// The sums of shares and of uncertainties. A share has 19 bits, the sum of at most 1000 has 29; that of
/// uncertainties is at most 362880×65535 and has 35.
fn two<S: Sums>(window: &Window, placing: &Placing, by: &S) -> Result<S::Answer, Refusal> {
    let list = window
        .list(|entry| (entry.base, (u64::from(entry.uncertainty) << 29) + 1, i64::from(entry.correction)));
    by.value(&window.shape, placing, |local| {
        let net = &window.net[local..];
        let (mut word, mut correction, mut bits) = (0u64, 0, 0);
        for &(base, factor, own) in &list {
            let share = net[base];
            bits |= share;
            word = word.wrapping_add(u64::from(share).wrapping_mul(factor));
            correction += i64::from(share) * own;
        }
        if bits >> 19 != 0 {
            return TOO_MUCH;
        }
        Blended { shares: word % (1 << 29), correction, uncertainty: word >> 29 }
    })
}
