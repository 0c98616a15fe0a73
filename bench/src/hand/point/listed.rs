//! The window listed once, so that no local place has to look for its entries again.

use super::bernstein::Blended;
use super::checks::Checked;
use super::window::Entry;
use super::{Refusal, Sums};

pub fn answer<'a, S: Sums>(call: &impl Checked<'a>, by: &S) -> Result<S::Answer, Refusal> {
    let (window, placing) = call.checked::<S>()?;
    let list = window.list(|entry| entry);
    by.value(&window.shape, &placing, |local| {
        let net = &window.net[local..];
        let mut sums = Blended::default();
        for &Entry { base, correction, uncertainty } in &list {
            sums.add(net[base], correction, uncertainty);
        }
        sums
    })
}
