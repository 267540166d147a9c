//! Bit strings of at most 32 bits.

use super::WIDTH;
use doors::records::Fields;
use std::fmt;
use std::net::Ipv4Addr;

/// A bit string: its bits stand at the high end of `address`, with zeros behind them.
#[derive(Clone, Copy, PartialEq, Eq, PartialOrd, Ord)]
pub struct Prefix {
    pub length: u8,
    pub address: u32,
}

impl Prefix {
    pub const EMPTY: Prefix = Prefix { length: 0, address: 0 };

    /// The first `length` bits of an address.
    pub fn of(address: u32, length: u8) -> Prefix {
        // In 64 bits, so that all 32 bits can be shifted out.
        let behind = WIDTH - length;
        Prefix { length, address: (u64::from(address) >> behind << behind) as u32 }
    }

    /// The non-empty strings that begin this one or equal it.
    pub fn beginnings(self) -> impl Iterator<Item = Prefix> {
        (1..=self.length).map(move |length| Prefix::of(self.address, length))
    }

    /// This string with one bit more behind it; none where all bits are used up.
    pub fn child(self, bit: bool) -> Option<Prefix> {
        let weight = u32::from(bit) << (WIDTH - 1).checked_sub(self.length)?;
        Some(Prefix { length: self.length + 1, address: self.address | weight })
    }

    /// The last address that this string begins.
    pub fn last(self) -> u32 {
        self.address | (u64::from(u32::MAX) >> self.length) as u32
    }

    /// The record that announces this string.
    pub fn announced(self, hop: u16) -> Fields {
        Fields::announcement(self.address, self.length, hop)
    }

    /// The record that withdraws it.
    pub fn withdrawn(self) -> Fields {
        Fields::withdrawal(self.address, self.length)
    }

    /// Where a hop may change on account of this string: its first and last address, and the addresses beside those.
    pub fn boundary(self) -> [u32; 4] {
        let (first, last) = (self.address, self.last());
        [first.wrapping_sub(1), first, last, last.wrapping_add(1)]
    }
}

impl fmt::Debug for Prefix {
    fn fmt(&self, f: &mut fmt::Formatter) -> fmt::Result {
        write!(f, "{}/{}", Ipv4Addr::from(self.address), self.length)
    }
}
