//! What a build, a factory call and an inspection give back: docs/SPECIFICATION.md, 6 and 7.

use crate::net::{Multiplicities, Net};
use crate::unit::{Refusal, Unit, refuse_if};

pub const LONGEST_ORDER: usize = 8;

/// The multiplicities of an order, or its refusal by 1 or 2. Each byte adds 1 to the multiplicity of its direction.
pub fn multiplicities(order: &[u8]) -> Result<Multiplicities, Refusal> {
    refuse_if(order.len() > LONGEST_ORDER, 1)?;
    if let Some(position) = order.iter().position(|byte| !(1..=4).contains(byte)) {
        return Err(Refusal::at(2, position));
    }
    let mut v = [1; 4];
    for byte in order {
        v[usize::from(byte - 1)] += 1;
    }
    Ok(Multiplicities::new(v).expect("four and at most eight more"))
}

/// A build into slices of these lengths: the unit afterwards.
pub fn build(unit: &Unit, order: &[u8], lengths: [usize; 2]) -> Result<Unit, Refusal> {
    let v = multiplicities(order)?;
    refuse_if(lengths.iter().any(|&length| length < v.places()), 4)?;
    Ok(unit.with_net(v))
}

/// The multiplicities that a unit leaves the factory with.
pub fn factory_shape() -> Multiplicities {
    Multiplicities::new([2, 2, 2, 1]).expect("within the limits")
}

/// A factory call on a net slice, which then is as the call leaves it: the unit afterwards. `defined` finds the
/// net of the multiplicities.
pub fn factory<'a>(unit: &Unit, net: &mut [u32], defined: impl Fn(Multiplicities) -> &'a Net) -> Result<Unit, Refusal> {
    let v = factory_shape();
    let places = net.get_mut(..v.places()).ok_or(Refusal::from(4))?;
    places.copy_from_slice(&defined(v).numbers);
    Ok(unit.with_net(v))
}

/// An inspection of the lent numbers for `v`: the unit afterwards. `defined` finds the net of the multiplicities.
pub fn inspect<'a>(
    unit: &Unit,
    v: [u8; 4],
    lent: &[u32],
    work_lengths: [usize; 2],
    defined: impl Fn(Multiplicities) -> &'a Net,
) -> Result<Unit, Refusal> {
    let v = Multiplicities::new(v.map(usize::from)).ok_or(Refusal::from(3))?;
    let shortest = work_lengths.into_iter().fold(lent.len(), usize::min);
    refuse_if(shortest < v.places(), 4)?;
    let differs = defined(v).numbers.iter().zip(lent).position(|(defined, lent)| defined != lent);
    match differs {
        Some(index) => Err(Refusal::at(14, index)),
        None => Ok(unit.with_net(v)),
    }
}

#[cfg(test)]
mod tests {
    use super::*;

    #[test]
    fn an_order_of_eight_passes_and_nine_meets_1() {
        assert!(build(&Unit::EMPTY, &[1; 8], [1 << 20; 2]).is_ok());
        assert_eq!(build(&Unit::EMPTY, &[1; 9], [1 << 20; 2]), Err(Refusal::from(1)));
    }

    #[test]
    fn a_build_needs_both_slices() {
        assert!(build(&Unit::EMPTY, &[], [27, 27]).is_ok());
        for lengths in [[26, 27], [27, 26]] {
            assert_eq!(build(&Unit::EMPTY, &[], lengths), Err(Refusal::from(4)));
        }
    }

    /// With a net and a block that break the limits.
    const BROKEN: Unit =
        Unit { has_net: true, v: [0, 255, 9, 9], has_block: true, n: [0, 65535, 65], o: [-32768, 32767, -1] };

    #[test]
    fn a_factory_call_needs_2197_places() {
        let net = Net::of(factory_shape());
        for length in [0, 1, 27, 2196] {
            let mut slice = vec![7; length];
            assert_eq!(factory(&BROKEN, &mut slice, |_| &net), Err(Refusal::from(4)));
            assert!(slice.iter().all(|&number| number == 7));
        }
        for length in [2197, 2198, 3000] {
            let mut slice = vec![7; length];
            assert_eq!(factory(&BROKEN, &mut slice, |_| &net), Ok(Unit { v: [2, 2, 2, 1], ..BROKEN }));
            let (copied, past) = slice.split_at(2197);
            assert_eq!(copied, net.numbers);
            assert!(past.iter().all(|&number| number == 7));
        }
    }

    #[test]
    fn a_factory_call_gives_what_a_build_gives_and_an_inspection_passes() {
        let net = Net::of(factory_shape());
        for unit in [Unit::EMPTY, BROKEN, Unit { has_net: false, has_block: false, ..BROKEN }] {
            let mut slice = vec![u32::MAX; 2197];
            let copied = factory(&unit, &mut slice, |_| &net);
            assert_eq!(copied, build(&unit, &[1, 3, 2], [2197; 2]));
            assert_eq!(copied, inspect(&unit, [2, 2, 2, 1], &slice, [2197; 2], |_| &net));
        }
    }

    #[test]
    fn an_inspection_names_the_lowest_index() {
        let simple = Net::of(Multiplicities::new([1; 4]).unwrap());
        let mut lent = simple.numbers.clone();
        let inspect = |lent: &[u32]| inspect(&Unit::EMPTY, [1; 4], lent, [27; 2], |_| &simple);
        assert_eq!(inspect(&lent), Ok(Unit::EMPTY.with_net(simple.multiplicities)));
        (lent[5], lent[20]) = (1, 1);
        assert_eq!(inspect(&lent), Err(Refusal::at(14, 5)));
    }
}
