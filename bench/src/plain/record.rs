//! One record, judged by the rules 4 to 7 in their order.

use super::refusal;
use doors::records::{Fields, ANNOUNCE, RECORD, WITHDRAW};

/// The hop of an address without a route. It may be announced too.
pub const DISCARD: u32 = 0;
/// The hops that may be announced are 0 to this.
pub const HIGHEST_HOP: u16 = 256;

/// For each length that a prefix may have, its highest bits.
const MASKS: [u32; 33] = {
    let mut masks = [0; 33];
    let mut length = 1;
    while length < masks.len() {
        masks[length] = u32::MAX << (32 - length);
        length += 1;
    }
    masks
};

#[derive(Clone, Copy)]
pub struct Prefix {
    pub address: u32,
    pub length: u8,
    mask: u32,
}

impl Prefix {
    fn of(fields: &Fields) -> Result<Prefix, u32> {
        let Fields { address, length, .. } = *fields;
        let mask = *MASKS.get(usize::from(length)).ok_or(refusal::BAD_PREFIX_LENGTH)?;
        if address & !mask != 0 {
            return Err(refusal::STRAY_BIT);
        }
        Ok(Prefix { address, length, mask })
    }

    pub fn begins(self, address: u32) -> bool {
        address & self.mask == self.address
    }
}

pub enum Change {
    Announce(Prefix, u32),
    Withdraw(Prefix),
}

/// A record of an update.
pub fn read(record: [u8; RECORD]) -> Result<Change, u32> {
    let fields = Fields::of(record);
    let prefix = Prefix::of(&fields)?;
    match fields.action {
        ANNOUNCE => Ok(Change::Announce(prefix, announced(fields.hop)?)),
        WITHDRAW if fields.hop == 0 => Ok(Change::Withdraw(prefix)),
        WITHDRAW => Err(refusal::BAD_HOP),
        _ => Err(refusal::BAD_ACTION),
    }
}

/// A record of a list that is looked up: an announcement.
pub fn read_announcement(record: [u8; RECORD]) -> Result<(Prefix, u32), u32> {
    let fields = Fields::of(record);
    let prefix = Prefix::of(&fields)?;
    if fields.action != ANNOUNCE {
        return Err(refusal::BAD_ACTION);
    }
    Ok((prefix, announced(fields.hop)?))
}

fn announced(hop: u16) -> Result<u32, u32> {
    if hop <= HIGHEST_HOP {
        Ok(u32::from(hop))
    } else {
        Err(refusal::BAD_HOP)
    }
}
