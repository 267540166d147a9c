//! What a record asks for, and the rules that need no ledger: 4 to 7.

use super::{Prefix, HIGHEST_HOP, WIDTH};
use doors::records::{Fields, ANNOUNCE, RECORD};

/// What a prefix shall hold from now on: a hop, or nothing.
pub struct Change {
    pub prefix: Prefix,
    pub hop: Option<u16>,
}

/// The records of a list, or 3 for one that is not made of whole records.
pub fn records_of(list: &[u8]) -> Result<Vec<Fields>, u32> {
    let (records, rest) = list.as_chunks::<RECORD>();
    if rest.is_empty() {
        Ok(records.iter().map(|&record| Fields::of(record)).collect())
    } else {
        Err(3)
    }
}

/// Reads a record where only these actions are allowed, or says by which rule it is refused.
pub fn change(record: Fields, actions: &[u8]) -> Result<Change, u32> {
    if record.length > WIDTH {
        return Err(4);
    }
    let prefix = Prefix::of(record.address, record.length);
    if prefix.address != record.address {
        return Err(5);
    }
    if !actions.contains(&record.action) {
        return Err(6);
    }
    if record.action == ANNOUNCE {
        match record.hop {
            0..=HIGHEST_HOP => Ok(Change { prefix, hop: Some(record.hop) }),
            _ => Err(7),
        }
    } else {
        match record.hop {
            0 => Ok(Change { prefix, hop: None }),
            _ => Err(7),
        }
    }
}
