//! The limits and sizes of torskavel.rs, which gives them under its own name.

/// The most bytes of code and constants of the archive.
pub const MAX_CODE: usize = 28672;
/// The most bytes of stack that a call takes, but for what memset and memcpy take.
pub const MAX_STACK: usize = 12288;
/// The most bytes of stack that `build`, `inspect` and `place` take.
pub const MAX_STACK_BUILD: usize = 2048;
/// The most bytes of stack that `empty_unit`, `factory` and `load` take.
pub const MAX_STACK_LOAD: usize = 288;

/// The most bytes of an order.
pub const MAX_ORDER: usize = 8;
/// The highest sum of the four multiplicities, each at least 1.
pub const MAX_MULTIPLICITY_SUM: u32 = 12;
/// The highest degree of a net.
pub const MAX_DEGREE: u32 = 9;
/// The most places of a net.
pub const MAX_PLACES: usize = 753571;
/// The largest size of a block on an axis.
pub const MAX_SIZE: u16 = 64;
/// The most entries of a block.
pub const MAX_ENTRIES: usize = 4096;
/// The bytes of the longest file.
pub const MAX_FILE: usize = 16396;
/// The largest uncertainty in a file.
pub const MAX_UNCERTAINTY: u16 = 32767;
/// The largest divisor of a point.
pub const MAX_DIVISOR: u32 = 4096;
/// The largest denominator of an answer.
pub const MAX_DENOMINATOR: u64 = 281474976710656;
/// The largest denominator with which a live call answers.
pub const MAX_LIVE_DENOMINATOR: u64 = 137438953472;
/// The correction of a gap, an entry that was never measured. In a file its uncertainty is 0.
pub const NEVER_MEASURED: i16 = -32768;
/// The places of the net of the factory shape, 2, 2, 2, 1.
pub const FACTORY_PLACES: usize = 2197;

/// The places of the net of four multiplicities that are within their limits.
pub const fn places([v1, v2, v3, v4]: [u8; 4]) -> usize {
    let [v1, v2, v3, v4] = [v1 as usize, v2 as usize, v3 as usize, v4 as usize];
    let degree = (v1 + v2 + v3 + v4).saturating_sub(3);
    (degree * (v1 + v4) + 1) * (degree * (v2 + v4) + 1) * (degree * (v3 + v4) + 1)
}

/// The entries of a block of three sizes.
pub const fn entries([n1, n2, n3]: [u16; 3]) -> usize {
    n1 as usize * n2 as usize * n3 as usize
}

/// The bytes of the file of a block of three sizes.
pub const fn file_length(n: [u16; 3]) -> usize {
    12 + 4 * entries(n)
}
