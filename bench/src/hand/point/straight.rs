//! The window gone through in the block at each local place.

use super::bernstein::Blended;
use super::checks::Checked;
use super::window::Window;
use super::{Refusal, Sums};

pub fn answer<'a, S: Sums>(call: &impl Checked<'a>, by: &S) -> Result<S::Answer, Refusal> {
    let (window, placing) = call.checked::<S>()?;
    by.value(&window.shape, &placing, |local| blend(&window, local))
}

/// The sums at the local place that stands at `local` in the net. Inlined in the exact and in the live call, as
/// the compiler would by itself if there were only one of them.
#[inline(always)]
fn blend(window: &Window, local: usize) -> Blended {
    let &Window { shape, net, corrections, uncertainties, .. } = window;
    let m = shape.degree;
    let [e1, e2, e3] = shape.extents;
    let [_, stride2, stride3] = shape.strides();
    let mut sums = Blended::default();
    for back3 in 0..e3 {
        for back2 in 0..e2 {
            let first = local + m * (stride2 * back2 + stride3 * back3);
            let end = window.row_end(back2, back3);
            for back1 in 0..e1 {
                sums.add(net[first + m * back1], corrections[end - back1], uncertainties[end - back1]);
            }
        }
    }
    sums
}
