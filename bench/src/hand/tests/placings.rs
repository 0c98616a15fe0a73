use super::{past_origin, pick, random_unit};
use crate::hand::{
    Answer, LiveAnswer, Refusal, SHAPES, Valuing, answer, defined_order, live_answer, live_tuned, place,
    tuned,
};
use crate::torskavel::{self, Placing, Unit};
use evaluator::random::Random;
use std::collections::BTreeSet;
use std::mem::swap;

const CALLS: usize = 20_000;
const PLACES: usize = 41 * 41 * 41;
const ENTRIES: usize = 216;

/// The library's answer or refusal.
fn result<T>(number: u32, place: usize, answer: T) -> Result<T, Refusal> {
    if number == 0 { Ok(answer) } else { Err(Refusal { number, place }) }
}

/// The number that the library's placing call answers, and the placing, where both agree.
fn agreed_place(unit: Unit, point: [i32; 3], divisor: u32) -> (u32, Placing) {
    let library = torskavel::place(unit, point, divisor);
    let expected = result(library.number, library.place, library.placing);
    assert_eq!(place(unit, point, divisor), expected, "{unit:?} {point:?} {divisor}");
    (library.number, library.placing)
}

/// The number that the library's exact valuing call answers, where all agree.
fn agreed_value(call: &Valuing) -> u32 {
    let &Valuing { unit, net, corrections, uncertainties, placing } = call;
    let library = torskavel::value(unit, net, corrections, uncertainties, placing);
    let numbers = (library.numerator, library.uncertainty, library.denominator);
    let straight = ("straight", answer as Answer<Valuing>);
    for (shape, value) in [straight].into_iter().chain(SHAPES.into_iter().zip(tuned())) {
        let answered = value(call).map(|f| (f.numerator, f.uncertainty, f.denominator));
        assert_eq!(answered, result(library.number, library.place, numbers), "{shape} {unit:?} {placing:?}");
    }
    library.number
}

/// That of the live one.
fn agreed_live(call: &Valuing, on: bool) -> u32 {
    let &Valuing { unit, net, corrections, uncertainties, placing } = call;
    let library = torskavel::live_value(unit, net, corrections, uncertainties, placing, on);
    let bits = [library.numerator.to_bits(), library.uncertainty.to_bits()];
    let straight = ("straight", live_answer as LiveAnswer<Valuing>);
    for (shape, value) in [straight].into_iter().chain(SHAPES.into_iter().zip(live_tuned())) {
        let answered = value(call, on).map(|floats| floats.bits());
        assert_eq!(
            answered,
            result(library.number, library.place, bits),
            "{shape} {unit:?} {placing:?} {on}"
        );
    }
    library.number
}

/// Two axes of the placing change places, or a field is another.
fn changed(mut placing: Placing, random: &mut Random) -> Placing {
    let any = random.below(1 << 32) as u32;
    let Placing { k1, k2, k3, p, r, s, l0, l1, l2, l3 } = &mut placing;
    match random.below(6) {
        0 => swap(p, r),
        1 => swap(r, s),
        2 => *pick_mut([p, r, s], random) = pick(random, &[0, 1, 2, 3, 4, 255]),
        _ => {
            let field = pick_mut([k1, k2, k3, l0, l1, l2, l3], random);
            let (more, less) = (field.wrapping_add(1), field.wrapping_sub(1));
            *field = pick(random, &[more, less, 0, 2000, field.wrapping_add(1 << 16), any]);
        }
    }
    placing
}

fn pick_mut<'a, T, const N: usize>(fields: [&'a mut T; N], random: &mut Random) -> &'a mut T {
    fields.into_iter().nth(random.between(0, N - 1)).expect("there are so many")
}

/// How far past the origin a coordinate in reach of the block is, or one on its far face, just past it or
/// just before the origin.
fn steps(size: u16, divisor: u32, random: &mut Random) -> i32 {
    let far = i32::from(size) * divisor as i32;
    let any = random.between(0, far as usize + 1) as i32;
    pick(random, &[any, any, any, any, any, any, far, far, far + 1, -1])
}

#[test]
fn placings_agree() {
    let mut random = Random::new(6);
    let (mut net, mut work) = (vec![0; PLACES], vec![0; PLACES]);
    let mut numbers = [BTreeSet::new(), BTreeSet::new(), BTreeSet::new()];
    for _ in 0..CALLS {
        let unit = random_unit(&mut random);
        torskavel::build(unit, &defined_order([unit.v1, unit.v2, unit.v3, unit.v4]), &mut net, &mut work);
        net[0] += u32::from(random.below(8) == 0);
        let mut corrections: Vec<i16> =
            (0..ENTRIES).map(|_| (random.below(65535) as i32 - 32767) as i16).collect();
        let uncertainties: Vec<u16> = (0..ENTRIES).map(|_| random.below(65536) as u16).collect();
        if random.below(4) == 0 {
            corrections[random.between(0, ENTRIES - 1)] = i16::MIN;
        }
        let divisor = pick(&mut random, &[1, 2, 3, 7, 64, 64, 297, 0, 4096, 4097]);
        let point = past_origin(&unit, divisor, |n| steps(n, divisor, &mut random));
        let (number, mut placing) = agreed_place(unit, point, divisor);
        if random.below(3) == 0 {
            placing = changed(placing, &mut random);
        }
        let net = &net[..pick(&mut random, &[PLACES, PLACES, PLACES, 2196, 26])];
        let corrections = &corrections[..pick(&mut random, &[215, 216, 216, 216, 216, 64])];
        let call = Valuing { unit, net, corrections, uncertainties: &uncertainties, placing };
        let agreed = [number, agreed_value(&call), agreed_live(&call, random.below(2) == 0)];
        for (numbers, number) in numbers.iter_mut().zip(agreed) {
            numbers.insert(number);
        }
    }
    let exact = BTreeSet::from([0, 21, 22, 17, 4, 9, 13, 23]);
    let live = exact.iter().copied().chain([15]).collect();
    assert_eq!(numbers, [BTreeSet::from([0, 21, 22, 10, 11, 12]), exact, live]);
}
