//! Torskavel for Rust: the calls of the archive that `rt lib --cpu x86-64` in crates/c_api writes,
//! crates/c_api/out/libc_api.a. What each does, and what the archive needs, stands in torskavel.h. The functions are safe:
//! every Rust slice keeps what a C caller owes, and Rust rounds to nearest. Beside this file stand torskavel_calls.rs,
//! torskavel_layout.rs and torskavel_limits.rs.
//!
//! For users of 0.6.0: coordinates are `i32` now, and a literal of `Unit` wants `o1`, `o2` and `o3`, zeros for the block
//! that you had. torskavel.h has the rest.

// A program may use any part of this file.
#![allow(dead_code, unused_imports)]

/// The calls as C has them.
#[path = "torskavel_calls.rs"]
pub mod calls;
#[path = "torskavel_layout.rs"]
mod layout;
#[path = "torskavel_limits.rs"]
mod limits;

use calls::*;
pub use layout::*;
pub use limits::*;

pub const VERSION_MAJOR: u32 = 0;
pub const VERSION_MINOR: u32 = 7;
pub const VERSION_PATCH: u32 = 0;

/// The numbers of refusals, and 0 for none.
pub mod refused {
    pub const NOT: u32 = 0;
    pub const ORDER_LENGTH: u32 = 1;
    pub const ORDER_BYTE: u32 = 2;
    pub const MULTIPLICITIES: u32 = 3;
    pub const NET_LENGTH: u32 = 4;
    pub const FILE_HEADER: u32 = 5;
    pub const SIZES: u32 = 6;
    pub const FILE_LENGTH: u32 = 7;
    pub const UNCERTAINTY: u32 = 8;
    pub const BLOCK_LENGTH: u32 = 9;
    pub const DIVISOR: u32 = 10;
    pub const DENOMINATOR: u32 = 11;
    pub const OUTSIDE: u32 = 12;
    pub const UNMEASURED: u32 = 13;
    pub const NET_DIFFERS: u32 = 14;
    pub const LIVE_DENOMINATOR: u32 = 15;
    pub const UNCERTAIN_GAP: u32 = 16;
    pub const PLACING: u32 = 17;
    pub const NO_NET: u32 = 21;
    pub const NO_BLOCK: u32 = 22;
    pub const SHARES: u32 = 23;
}

pub fn empty_unit() -> Unit {
    torskavel_empty_unit()
}

pub fn build(unit: Unit, order: &[u8], net: &mut [u32], work: &mut [i32]) -> UnitAnswer {
    let (net, net_length) = (net.as_mut_ptr(), net.len());
    let (work, work_length) = (work.as_mut_ptr(), work.len());
    // Safety: the pointers and lengths are of slices that are borrowed for the call; those below likewise.
    unsafe { torskavel_build(unit, order.as_ptr(), order.len(), net, net_length, work, work_length) }
}

/// Copies the net of the factory shape to the first `FACTORY_PLACES` numbers; where there are fewer, it is
/// refused by 4.
pub fn factory(unit: Unit, net: &mut [u32]) -> UnitAnswer {
    unsafe { torskavel_factory(unit, net.as_mut_ptr(), net.len()) }
}

pub fn inspect(unit: Unit, v: [u8; 4], net: &[u32], defined: &mut [u32], work: &mut [i32]) -> UnitAnswer {
    let [v1, v2, v3, v4] = v;
    let (net, net_length) = (net.as_ptr(), net.len());
    let (defined, defined_length) = (defined.as_mut_ptr(), defined.len());
    let (work, work_length) = (work.as_mut_ptr(), work.len());
    unsafe { torskavel_inspect(unit, v1, v2, v3, v4, net, net_length, defined, defined_length, work, work_length) }
}

pub fn load(unit: Unit, file: &[u8], corrections: &mut [i16], uncertainties: &mut [u16]) -> UnitAnswer {
    let (c, c_length) = (corrections.as_mut_ptr(), corrections.len());
    let (u, u_length) = (uncertainties.as_mut_ptr(), uncertainties.len());
    unsafe { torskavel_load(unit, file.as_ptr(), file.len(), c, c_length, u, u_length) }
}

/// The point's coordinates are over the divisor, and read from the block's origin: on axis b the coordinate less ob
/// times the divisor counts, and where that is negative the point is refused by 12. The far face of axis b, where the
/// coordinate is (ob + nb) times the divisor, is inside; where nb is less than vb + v4, nothing is.
pub fn answer(
    unit: Unit,
    net: &[u32],
    corrections: &[i16],
    uncertainties: &[u16],
    [x, y, z]: [i32; 3],
    divisor: u32,
) -> PointAnswer {
    let (net, net_length) = (net.as_ptr(), net.len());
    let (c, c_length) = (corrections.as_ptr(), corrections.len());
    let (u, u_length) = (uncertainties.as_ptr(), uncertainties.len());
    unsafe { torskavel_answer(unit, net, net_length, c, c_length, u, u_length, x, y, z, divisor) }
}

/// The live call: the numbers of `answer` as floats, to be divided by m! times divisor^m. Where that is above
/// `MAX_LIVE_DENOMINATOR`, and no check before applies, it is refused by 15. An uncertainty that is switched off
/// is +0.0.
pub fn live_answer(
    unit: Unit,
    net: &[u32],
    corrections: &[i16],
    uncertainties: &[u16],
    [x, y, z]: [i32; 3],
    divisor: u32,
    with_uncertainty: bool,
) -> LivePointAnswer {
    let (net, net_length) = (net.as_ptr(), net.len());
    let (c, c_length) = (corrections.as_ptr(), corrections.len());
    let (u, u_length) = (uncertainties.as_ptr(), uncertainties.len());
    let flag = with_uncertainty.into();
    unsafe { torskavel_live_answer(unit, net, net_length, c, c_length, u, u_length, x, y, z, divisor, flag) }
}

/// Places a point once, for `value` and `live_value` over any number of blocks of these sizes and this origin.
pub fn place(unit: Unit, [x, y, z]: [i32; 3], divisor: u32) -> PlacingAnswer {
    torskavel_place(unit, x, y, z, divisor)
}

/// What `answer` gives at the point that a placing stands for. A placing that no point of the unit has is refused
/// by 17. The origin is not looked at: the cell of a placing counts from the block's first entry.
pub fn value(unit: Unit, net: &[u32], corrections: &[i16], uncertainties: &[u16], placing: Placing) -> PointAnswer {
    let (net, net_length) = (net.as_ptr(), net.len());
    let (c, c_length) = (corrections.as_ptr(), corrections.len());
    let (u, u_length) = (uncertainties.as_ptr(), uncertainties.len());
    unsafe { torskavel_value(unit, net, net_length, c, c_length, u, u_length, placing) }
}

/// What `live_answer` gives there. 15 comes just after 17, before the lengths of the slices are looked at.
pub fn live_value(
    unit: Unit,
    net: &[u32],
    corrections: &[i16],
    uncertainties: &[u16],
    placing: Placing,
    with_uncertainty: bool,
) -> LivePointAnswer {
    let (net, net_length) = (net.as_ptr(), net.len());
    let (c, c_length) = (corrections.as_ptr(), corrections.len());
    let (u, u_length) = (uncertainties.as_ptr(), uncertainties.len());
    let flag = with_uncertainty.into();
    unsafe { torskavel_live_value(unit, net, net_length, c, c_length, u, u_length, placing, flag) }
}
