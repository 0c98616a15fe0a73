//! A block with an origin from Rust: a load sets it, a build and the factory call keep it, and a block that
//! is moved by it answers the moved point, exactly, live and placed, as it did the point before.

#[path = "../../include/torskavel.rs"]
mod torskavel;

use torskavel::{FACTORY_PLACES, LivePointAnswer, PlacingAnswer, PointAnswer, Unit, refused};

const SIZES: [u16; 3] = [4, 3, 3];
const ENTRIES: usize = torskavel::entries(SIZES);
const DIVISOR: u32 = 5;

fn file(origin: [i16; 3]) -> Vec<u8> {
    let head =
        SIZES.into_iter().flat_map(u16::to_le_bytes).chain(origin.into_iter().flat_map(i16::to_le_bytes));
    let corrections = (0..ENTRIES as i16).flat_map(|i| (100 - 7 * i).to_le_bytes());
    let uncertainties = (0..ENTRIES as u16).flat_map(|i| (i % 5).to_le_bytes());
    head.chain(corrections).chain(uncertainties).collect()
}

/// The slices of a unit with the factory's net.
struct Slices {
    net: Vec<u32>,
    corrections: Vec<i16>,
    uncertainties: Vec<u16>,
}

impl Slices {
    /// The unit with a block of this origin. The net comes last: it must keep the block.
    fn unit(&mut self, origin: [i16; 3]) -> Unit {
        let Slices { net, corrections, uncertainties } = self;
        let bytes = file(origin);
        assert_eq!(bytes.len(), torskavel::file_length(SIZES));
        let loaded = torskavel::load(torskavel::empty_unit(), &bytes, corrections, uncertainties);
        let built = torskavel::build(loaded.unit, &[1], net, &mut vec![0; FACTORY_PLACES]);
        let copied = torskavel::factory(built.unit, net);
        assert_eq!([loaded.number, built.number, copied.number], [refused::NOT; 3]);
        let ([n1, n2, n3], [o1, o2, o3]) = (SIZES, origin);
        let right = Unit { has_net: 1, v1: 2, v2: 2, v3: 2, v4: 1, has_block: 1, n1, n2, n3, o1, o2, o3 };
        assert_eq!(copied.unit, right);
        right
    }

    /// All calls at a point, whose coordinates are read from the origin.
    fn at(&self, unit: Unit, read: [i32; 3]) -> (PointAnswer, LivePointAnswer, PlacingAnswer, PointAnswer) {
        let Slices { net, corrections: c, uncertainties: u } = self;
        let origin = [unit.o1, unit.o2, unit.o3].map(i32::from);
        let point = [0, 1, 2].map(|b| read[b] + origin[b] * DIVISOR as i32);
        let placed = torskavel::place(unit, point, DIVISOR);
        (
            torskavel::answer(unit, net, c, u, point, DIVISOR),
            torskavel::live_answer(unit, net, c, u, point, DIVISOR, true),
            placed,
            torskavel::value(unit, net, c, u, placed.placing),
        )
    }
}

fn main() {
    let mut slices = Slices {
        net: vec![0; FACTORY_PLACES],
        corrections: vec![0; ENTRIES],
        uncertainties: vec![0; ENTRIES],
    };
    let at_0 = slices.unit([0; 3]);
    let points =
        [[12, 11, 13], [20, 15, 15], [10, 10, 10], [9, 12, 12], [21, 12, 12], [-1, 12, 12], [12, 12, -1]];
    let before = points.map(|point| slices.at(at_0, point));
    let numbers = before.map(|(exact, ..)| exact.number);
    assert_eq!(numbers, [0, 0, 0, 12, 12, 12, 12]);
    for origin in [[-2, -1, -1], [i16::MAX, i16::MIN, 3], [i16::MIN, 0, i16::MAX], [0, i16::MAX, -1]] {
        let moved = slices.unit(origin);
        assert_eq!(points.map(|point| slices.at(moved, point)), before);
    }
    let mut old = file([0; 3]);
    old.drain(6..12);
    let refusal = torskavel::load(at_0, &old, &mut slices.corrections, &mut slices.uncertainties);
    assert_eq!((refusal.number, refusal.unit), (refused::FILE_LENGTH, at_0));
}
