//! The files of nets: digests of all, and whole ones in clear.

use super::text;
use crate::Outcome;
use crate::calls::Build;
use crate::report::Tally;
use crate::shelf::Shelf;
use evaluator::formats::{digest, join, listing};
use evaluator::net::{Multiplicities, Net};
use evaluator::unit::Unit;

/// The order that defines a net: all repeats of 1, then of 3, of 2, of 4.
fn defined_order(v: Multiplicities) -> Vec<u8> {
    [1, 3, 2, 4].into_iter().flat_map(|d| vec![d; v.counts()[usize::from(d) - 1] - 1]).collect()
}

fn build(v: Multiplicities) -> Outcome<Net> {
    let call = Build { unit: Unit::EMPTY.into(), order: &defined_order(v), lengths: [v.places(); 2] };
    let numbers = call.written(&Ok(Unit::EMPTY.with_net(v)), v.places())?;
    Ok(Net { multiplicities: v, numbers })
}

/// Builds all nets, in slices that just hold them. Each must have the stored digest.
pub fn digests(tally: &mut Tally) -> Outcome<Shelf> {
    let mut shelf = Shelf::default();
    let text = text("nets.txt")?;
    let mut stored = text.split_inclusive('\n');
    for v in (1..=9).flat_map(Multiplicities::of_degree) {
        let net = build(v)?;
        let (built, stored) = (digest(&net), stored.next().unwrap_or("nothing"));
        if built != stored {
            return Err(format!("net {}: built {built} stored {stored}", join(v.counts())));
        }
        tally.count(0);
        shelf.put(net);
    }
    stored.next().map_or(Ok(shelf), |line| Err(format!("{line} is of no net")))
}

/// The listing of each whole net must be the stored one.
pub fn whole(tally: &mut Tally) -> Outcome {
    let text = text("whole-nets.txt")?;
    for stored in text.split("net ").skip(1) {
        let (counts, stored) = stored.split_once('\n').ok_or("a net without a listing")?;
        let v = super::Words(counts.split_ascii_whitespace()).multiplicities()?;
        if listing(&build(v)?) != stored {
            return Err(format!("net {counts}: the listing is not the stored one"));
        }
        tally.count(0);
    }
    Ok(())
}
