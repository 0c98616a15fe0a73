//! A unit from Rust: the factory's net is copied and inspected, a field file loaded, points answered, exactly
//! and live, from a block with an origin too, a point placed once for both axes of a stage, and another net
//! built. Run with the paths of three field files: two of the same sizes, one for each axis, and one with an
//! origin.

#[path = "../../include/torskavel.rs"]
mod torskavel;

use torskavel::{LivePointAnswer, Placing, PointAnswer, Unit, UnitAnswer};

/// For the larger of the two nets. That of the factory has `torskavel::FACTORY_PLACES`.
const PLACES: usize = torskavel::places([3, 2, 2, 1]);
const ENTRIES: usize = 4096;

struct Block {
    corrections: Vec<i16>,
    uncertainties: Vec<u16>,
}

/// The slices that the unit's numbers stand in, with a block for each axis of the stage, and one that has an
/// origin.
struct Slices {
    net: Vec<u32>,
    defined: Vec<u32>,
    work: Vec<i32>,
    first: Block,
    second: Block,
    moved: Block,
}

impl Slices {
    fn new() -> Slices {
        let block = || Block { corrections: vec![0; ENTRIES], uncertainties: vec![0; ENTRIES] };
        Slices {
            net: vec![0; PLACES],
            defined: vec![0; PLACES],
            work: vec![0; PLACES],
            first: block(),
            second: block(),
            moved: block(),
        }
    }
}

/// Prints what the call gave, or its refusal.
fn report(call: &str, number: u32, place: usize, given: String) {
    match number {
        0 => println!("{call}: {given}"),
        _ => println!("{call}: refused {number}, place {place}"),
    }
}

/// What net a unit has, with one of its numbers.
fn told(unit: Unit, net: &[u32]) -> String {
    let Unit { v1, v2, v3, v4, .. } = unit;
    let degree = v1 + v2 + v3 + v4 - 3;
    let [w1, w2] = [v1, v2].map(|vb| usize::from(degree * (vb + v4) + 1));
    let number = net[6 + w1 * (6 + w2 * 6)];
    format!("multiplicities {v1} {v2} {v3} {v4}, number {number} at (6, 6, 6)")
}

/// Prints what net the unit has got, or the refusal, after which it has what it had.
fn got(call: &str, a: UnitAnswer, slices: &Slices) -> Unit {
    let given = if a.number == torskavel::refused::NOT { told(a.unit, &slices.net) } else { String::new() };
    report(call, a.number, a.place, given);
    a.unit
}

fn factory(unit: Unit, slices: &mut Slices) -> Unit {
    let a = torskavel::factory(unit, &mut slices.net);
    got("factory", a, slices)
}

fn build(unit: Unit, order: &[u8], slices: &mut Slices) -> Unit {
    let a = torskavel::build(unit, order, &mut slices.net, &mut slices.work);
    let call: String = order.iter().map(|byte| format!(" {byte}")).collect();
    got(&format!("build{call}"), a, slices)
}

fn inspect(unit: Unit, slices: &mut Slices) -> Unit {
    let a = torskavel::inspect(unit, [2, 2, 2, 1], &slices.net, &mut slices.defined, &mut slices.work);
    report("inspect 2 2 2 1", a.number, a.place, "passed".to_string());
    a.unit
}

fn load(unit: Unit, file: &[u8], block: &mut Block) -> Unit {
    let a = torskavel::load(unit, file, &mut block.corrections, &mut block.uncertainties);
    let Unit { n1, n2, n3, o1, o2, o3, .. } = a.unit;
    let given = format!("block {n1} {n2} {n3}, origin {o1} {o2} {o3}");
    report(&format!("load {} bytes", file.len()), a.number, a.place, given);
    a.unit
}

/// Prints the shift and its uncertainty, or the refusal.
fn answered(call: &str, a: PointAnswer) {
    let (n, u, over) = (a.numerator, a.uncertainty, a.denominator);
    report(call, a.number, a.place, format!("shift {n}/{over}, uncertainty {u}/{over}"));
}

fn answer_by(block: &Block, unit: Unit, [x, y, z]: [i32; 3], divisor: u32, net: &[u32]) {
    let a = torskavel::answer(unit, net, &block.corrections, &block.uncertainties, [x, y, z], divisor);
    answered(&format!("point ({x}, {y}, {z})/{divisor}"), a);
}

fn answer(unit: Unit, point: [i32; 3], divisor: u32, Slices { net, first, .. }: &Slices) {
    answer_by(first, unit, point, divisor, net);
}

/// Prints N and U, and what they are once divided, or the refusal.
fn live_answered(call: &str, a: LivePointAnswer, divisor: u32, with_uncertainty: bool) {
    let (n, u) = (a.numerator, a.uncertainty);
    // m! times divisor^m, where m is 4: a unit that is asked point after point works it out once
    let over = 24.0 * f64::from(divisor).powi(4);
    let shift = format!("N {n:.1}, shift {:.4}", n / over);
    let given = match with_uncertainty {
        true => format!("{shift}, U {u:.1}, uncertainty {:.4}", u / over),
        false => shift,
    };
    report(call, a.number, a.place, given);
}

fn live(unit: Unit, [x, y, z]: [i32; 3], divisor: u32, with: bool, Slices { net, first, .. }: &Slices) {
    let Block { corrections, uncertainties } = first;
    let a = torskavel::live_answer(unit, net, corrections, uncertainties, [x, y, z], divisor, with);
    let how = if with { "" } else { ", uncertainty switched off" };
    live_answered(&format!("live ({x}, {y}, {z})/{divisor}{how}"), a, divisor, with);
}

/// Prints the placing, or the refusal, which has no placing to value.
fn place(unit: Unit, [x, y, z]: [i32; 3], divisor: u32) -> Option<Placing> {
    let a = torskavel::place(unit, [x, y, z], divisor);
    let Placing { k1, k2, k3, p, r, s, l0, l1, l2, l3 } = a.placing;
    let given = format!("cell {k1} {k2} {k3}, axis order {p} {r} {s}, weights {l0} {l1} {l2} {l3}");
    report(&format!("place ({x}, {y}, {z})/{divisor}"), a.number, a.place, given);
    (a.number == torskavel::refused::NOT).then_some(a.placing)
}

/// Values a placing exactly and live.
fn value(name: &str, unit: Unit, net: &[u32], block: &Block, placing: Placing) {
    let Block { corrections, uncertainties } = block;
    let a = torskavel::value(unit, net, corrections, uncertainties, placing);
    answered(&format!("value, {name}"), a);
    let a = torskavel::live_value(unit, net, corrections, uncertainties, placing, true);
    let divisor = placing.l0 + placing.l1 + placing.l2 + placing.l3;
    live_answered(&format!("live value, {name}"), a, divisor, true);
}

/// The load sets the block's origin: coordinates are read from there, and may be negative.
fn from_the_origin(unit: Unit, file: &[u8], Slices { net, moved, .. }: &mut Slices) {
    let unit = load(unit, file, moved);
    // The second is on the far face of axis 1: 20 is -4 + 6, times 10. The third is before the origin, at -4
    // times 10.
    for x in [-6, 20, -41] {
        answer_by(moved, unit, [x, -7, -4], 10, net);
    }
}

/// One placing for both axes of the stage. The point is on the far face of a block with 3 entries on axis 2:
/// in a block with 4 entries there no point has this placing.
fn stage(unit: Unit, Slices { net, first, second, .. }: &Slices) {
    let Some(placing) = place(unit, [5, 6, 5], 2) else { return };
    value("first axis", unit, net, first, placing);
    value("second axis", unit, net, second, placing);
    value("another block", Unit { n2: 4, ..unit }, net, first, placing);
}

fn main() {
    let mut paths = std::env::args().skip(1);
    let mut next = || paths.next().expect("the paths of three field files");
    let [path, second, moved] = [next(), next(), next()];
    let mut slices = Slices::new();
    let mut unit = torskavel::empty_unit();
    answer(unit, [5, 5, 5], 2, &slices);
    unit = factory(unit, &mut slices);
    let mut file = std::fs::read(path).unwrap_or_default();
    unit = load(unit, &file, &mut slices.first);
    // The second is on the far face of axis 2, which has 3 entries: 6 is 3 times 2. The third is past it.
    for point in [[5, 5, 5], [5, 6, 5], [5, 7, 5], [7, 5, 5]] {
        answer(unit, point, 2, &slices);
    }
    // an uncertainty for the last entry, which was never measured
    if let [.., low, _] = &mut file[..] {
        *low = 11;
    }
    unit = load(unit, &file, &mut slices.first);
    live(unit, [5, 5, 5], 2, true, &slices);
    live(unit, [5, 5, 5], 2, false, &slices);
    // the same point, over a divisor that is too large for a live call
    answer(unit, [690, 690, 690], 276, &slices);
    live(unit, [690, 690, 690], 276, true, &slices);
    from_the_origin(unit, &std::fs::read(moved).unwrap_or_default(), &mut slices);
    unit = load(unit, &std::fs::read(second).unwrap_or_default(), &mut slices.second);
    stage(unit, &slices);
    unit = inspect(unit, &mut slices);
    slices.net[0] = 1;
    unit = inspect(unit, &mut slices);
    answer(unit, [4, 4, 4], 2, &slices);
    unit = build(unit, &[1, 5], &mut slices);
    // one repeat more than the factory's net has
    build(unit, &[1, 3, 2, 1], &mut slices);
}
