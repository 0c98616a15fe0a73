//! The calls as torskavel.h declares them; torskavel.rs makes them safe.

use super::{LivePointAnswer, Placing, PlacingAnswer, PointAnswer, Unit, UnitAnswer};

unsafe extern "C" {
    pub safe fn torskavel_empty_unit() -> Unit;
    pub fn torskavel_build(
        unit: Unit,
        order: *const u8,
        order_length: usize,
        net: *mut u32,
        net_length: usize,
        work: *mut i32,
        work_length: usize,
    ) -> UnitAnswer;
    pub fn torskavel_factory(unit: Unit, net: *mut u32, net_length: usize) -> UnitAnswer;
    pub fn torskavel_inspect(
        unit: Unit,
        v1: u8,
        v2: u8,
        v3: u8,
        v4: u8,
        net: *const u32,
        net_length: usize,
        defined: *mut u32,
        defined_length: usize,
        work: *mut i32,
        work_length: usize,
    ) -> UnitAnswer;
    pub fn torskavel_load(
        unit: Unit,
        file: *const u8,
        file_length: usize,
        corrections: *mut i16,
        corrections_length: usize,
        uncertainties: *mut u16,
        uncertainties_length: usize,
    ) -> UnitAnswer;
    pub fn torskavel_answer(
        unit: Unit,
        net: *const u32,
        net_length: usize,
        corrections: *const i16,
        corrections_length: usize,
        uncertainties: *const u16,
        uncertainties_length: usize,
        x: i32,
        y: i32,
        z: i32,
        divisor: u32,
    ) -> PointAnswer;
    pub fn torskavel_live_answer(
        unit: Unit,
        net: *const u32,
        net_length: usize,
        corrections: *const i16,
        corrections_length: usize,
        uncertainties: *const u16,
        uncertainties_length: usize,
        x: i32,
        y: i32,
        z: i32,
        divisor: u32,
        with_uncertainty: u8,
    ) -> LivePointAnswer;
    pub safe fn torskavel_place(unit: Unit, x: i32, y: i32, z: i32, divisor: u32) -> PlacingAnswer;
    pub fn torskavel_value(
        unit: Unit,
        net: *const u32,
        net_length: usize,
        corrections: *const i16,
        corrections_length: usize,
        uncertainties: *const u16,
        uncertainties_length: usize,
        placing: Placing,
    ) -> PointAnswer;
    pub fn torskavel_live_value(
        unit: Unit,
        net: *const u32,
        net_length: usize,
        corrections: *const i16,
        corrections_length: usize,
        uncertainties: *const u16,
        uncertainties_length: usize,
        placing: Placing,
        with_uncertainty: u8,
    ) -> LivePointAnswer;
}
