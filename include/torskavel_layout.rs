//! The records of torskavel.rs, which gives them under its own name, and the layouts that the archive has.

use core::mem::{align_of, offset_of, size_of};

/// What a unit holds; `o1`, `o2`, `o3` is the origin of its block, in entries. Any bytes may stand in it; of a flag, 1
/// says present, and every other byte counts as absent.
#[repr(C)]
#[derive(Clone, Copy, PartialEq, Eq, Debug)]
pub struct Unit {
    pub has_net: u8,
    pub v1: u8,
    pub v2: u8,
    pub v3: u8,
    pub v4: u8,
    pub has_block: u8,
    pub n1: u16,
    pub n2: u16,
    pub n3: u16,
    pub o1: i16,
    pub o2: i16,
    pub o3: i16,
}

/// The placing of a point: its cell, the axes in the order of their remainders, numbered 1, 2, 3, and the four
/// weights. Any values may stand in it; what no point of a unit has is refused by 17.
#[repr(C)]
#[derive(Clone, Copy, PartialEq, Eq, Debug)]
pub struct Placing {
    pub k1: u32,
    pub k2: u32,
    pub k3: u32,
    pub p: u8,
    pub r: u8,
    pub s: u8,
    pub l0: u32,
    pub l1: u32,
    pub l2: u32,
    pub l3: u32,
}

/// The number is 0 where the call was not refused; a refused call answers the unit as it was handed in.
#[repr(C)]
#[derive(Clone, Copy, PartialEq, Eq, Debug)]
pub struct UnitAnswer {
    pub number: u32,
    pub place: usize,
    pub unit: Unit,
}

/// The number is 0 where the call was not refused; a refused call answers a placing of zeros, which no unit
/// takes.
#[repr(C)]
#[derive(Clone, Copy, PartialEq, Eq, Debug)]
pub struct PlacingAnswer {
    pub number: u32,
    pub place: usize,
    pub placing: Placing,
}

/// The number is 0 where the call was not refused; a refused call answers zeros.
#[repr(C)]
#[derive(Clone, Copy, PartialEq, Eq, Debug)]
pub struct PointAnswer {
    pub number: u32,
    pub place: usize,
    pub numerator: i64,
    pub uncertainty: u64,
    pub denominator: u64,
}

/// N and U as floats, not divided. The number is 0 where the call was not refused; a refused call answers +0.0
/// for both.
#[repr(C)]
#[derive(Clone, Copy, PartialEq, Debug)]
pub struct LivePointAnswer {
    pub number: u32,
    pub place: usize,
    pub numerator: f64,
    pub uncertainty: f64,
}

const _: () = {
    assert!(size_of::<Unit>() == 18 && align_of::<Unit>() == 2);
    assert!(offset_of!(Unit, has_net) == 0 && offset_of!(Unit, v1) == 1 && offset_of!(Unit, v2) == 2);
    assert!(offset_of!(Unit, v3) == 3 && offset_of!(Unit, v4) == 4 && offset_of!(Unit, has_block) == 5);
    assert!(offset_of!(Unit, n1) == 6 && offset_of!(Unit, n2) == 8 && offset_of!(Unit, n3) == 10);
    assert!(offset_of!(Unit, o1) == 12 && offset_of!(Unit, o2) == 14 && offset_of!(Unit, o3) == 16);
    assert!(size_of::<Placing>() == 32 && align_of::<Placing>() == 4);
    assert!(offset_of!(Placing, k1) == 0 && offset_of!(Placing, k2) == 4 && offset_of!(Placing, k3) == 8);
    assert!(offset_of!(Placing, p) == 12 && offset_of!(Placing, r) == 13 && offset_of!(Placing, s) == 14);
    assert!(offset_of!(Placing, l0) == 16 && offset_of!(Placing, l1) == 20);
    assert!(offset_of!(Placing, l2) == 24 && offset_of!(Placing, l3) == 28);
    assert!(size_of::<UnitAnswer>() == 40 && align_of::<UnitAnswer>() == 8);
    assert!(offset_of!(UnitAnswer, number) == 0 && offset_of!(UnitAnswer, place) == 8);
    assert!(offset_of!(UnitAnswer, unit) == 16);
    assert!(size_of::<PlacingAnswer>() == 48 && align_of::<PlacingAnswer>() == 8);
    assert!(offset_of!(PlacingAnswer, number) == 0 && offset_of!(PlacingAnswer, place) == 8);
    assert!(offset_of!(PlacingAnswer, placing) == 16);
    assert!(size_of::<PointAnswer>() == 40 && align_of::<PointAnswer>() == 8);
    assert!(offset_of!(PointAnswer, number) == 0 && offset_of!(PointAnswer, place) == 8);
    assert!(offset_of!(PointAnswer, numerator) == 16 && offset_of!(PointAnswer, uncertainty) == 24);
    assert!(offset_of!(PointAnswer, denominator) == 32);
    assert!(size_of::<LivePointAnswer>() == 32 && align_of::<LivePointAnswer>() == 8);
    assert!(offset_of!(LivePointAnswer, number) == 0 && offset_of!(LivePointAnswer, place) == 8);
    assert!(offset_of!(LivePointAnswer, numerator) == 16 && offset_of!(LivePointAnswer, uncertainty) == 24);
};
