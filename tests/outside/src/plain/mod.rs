//! Document 01 with the items of document 02 that are built, as a plain program, for comparison: simple and obviously
//! right rather than fast. It was written from the documents alone, and shares nothing with the proved library but the
//! bytes of a record.

mod calls;
mod ledger;
mod prefix;
mod records;
mod smallest;

pub use calls::{announced, lookup_list, table, update, write};
pub use ledger::Ledger;
pub use prefix::Prefix;
pub use smallest::smallest;

/// The bits of an address.
pub const WIDTH: u8 = 32;
/// The hop of an address without a route. It may be announced, and then it is held like any other.
pub const DISCARD: u16 = 0;
/// The hops that may be announced are 0 to this.
pub const HIGHEST_HOP: u16 = 256;
pub const MOST_SLOTS: usize = 1_048_576;
/// The words of scratch that writing is lent for each slot.
pub const SCRATCH_WORDS: usize = 5;
/// The slots of the ledger that the daemon's table call makes for itself.
pub const TABLE_SLOTS: usize = 1_024;
