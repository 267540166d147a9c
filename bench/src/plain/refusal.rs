//! The numbers of the refusals.

pub const BAD_SCRATCH: u32 = 1;
pub const BAD_LIST_LENGTH: u32 = 3;
pub const BAD_PREFIX_LENGTH: u32 = 4;
pub const STRAY_BIT: u32 = 5;
pub const BAD_ACTION: u32 = 6;
pub const BAD_HOP: u32 = 7;
pub const NOT_HELD: u32 = 8;
pub const NO_SLOTS: u32 = 9;
pub const SHORT_OUTPUT: u32 = 11;
