//! The window outermost: each entry adds its shares to the sums at all local places. Most shares are 0, so
//! four that are all 0 are left out by one look; one by one, the processor seems to guess wrong too often.

use super::bernstein::Blended;
use super::checks::Checked;
use super::window::Entry;
use super::{Refusal, Sums};

const AT_A_TIME: usize = 4;

/// What is summed at a local place.
trait Summed: Copy + Default {
    fn add(&mut self, share: u32, entry: &Entry);
    fn blended(self) -> Blended;
}

impl Summed for Blended {
    fn add(&mut self, share: u32, entry: &Entry) {
        self.add(share, entry.correction, entry.uncertainty);
    }

    fn blended(self) -> Blended {
        self
    }
}

/// All but the uncertainties.
#[derive(Clone, Copy, Default)]
struct Corrections {
    shares: u64,
    correction: i64,
}

impl Summed for Corrections {
    fn add(&mut self, share: u32, entry: &Entry) {
        self.shares += u64::from(share);
        self.correction += i64::from(share) * i64::from(entry.correction);
    }

    fn blended(self) -> Blended {
        Blended { shares: self.shares, correction: self.correction, uncertainty: 0 }
    }
}

pub fn answer<'a, S: Sums>(call: &impl Checked<'a>, by: &S) -> Result<S::Answer, Refusal> {
    answer_from::<Blended, S>(call, by)
}

/// With 0 for every blended uncertainty.
pub fn answer_by_corrections<'a, S: Sums>(call: &impl Checked<'a>, by: &S) -> Result<S::Answer, Refusal> {
    answer_from::<Corrections, S>(call, by)
}

fn answer_from<'a, T: Summed, S: Sums>(call: &impl Checked<'a>, by: &S) -> Result<S::Answer, Refusal> {
    let (window, placing) = call.checked::<S>()?;
    let mut offsets = placing.local_places(&window.shape);
    // The places that fill up the last four have sums that nobody looks at.
    offsets.resize(offsets.len().next_multiple_of(AT_A_TIME), 0);
    let (offsets, _) = offsets.as_chunks::<AT_A_TIME>();
    let mut sums = vec![[T::default(); AT_A_TIME]; offsets.len()];
    window.each(|entry| add(&entry, &window.net[entry.base..], offsets, &mut sums));
    let mut next = sums.as_flattened().iter();
    by.value(&window.shape, &placing, |_| next.next().expect("there are sums for each local place").blended())
}

/// Adds the shares of an entry, which begin where `net` does.
fn add<T: Summed>(entry: &Entry, net: &[u32], offsets: &[[usize; AT_A_TIME]], sums: &mut [[T; AT_A_TIME]]) {
    for (sums, offsets) in sums.iter_mut().zip(offsets) {
        let shares = offsets.map(|offset| net[offset]);
        if shares != [0; AT_A_TIME] {
            for (sum, share) in sums.iter_mut().zip(shares) {
                sum.add(share, entry);
            }
        }
    }
}
