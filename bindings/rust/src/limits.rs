//! The limits of the requirements, as the library tests them.
#![forbid(unsafe_code)]

/// The most nodes of a sheet that is searched: refusal 5 beyond.
pub const NODE_LIMIT: u32 = 2_048;
/// The most links of a sheet that is searched: refusal 5 beyond.
pub const LINK_LIMIT: u32 = 16_384;
/// The most units of a weight, either way: refusal 4 beyond. The largest weight is 128, or 32 where the unit is 1/256.
pub const WEIGHT_LIMIT: i32 = 8_192;
/// The most readings that a list is asked for: refusal 7 beyond.
pub const LIST_LIMIT: u32 = 64;
