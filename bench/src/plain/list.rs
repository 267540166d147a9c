//! Lookup in a list of announcements, in one pass.

use super::record::{self, DISCARD};
use super::refusal;
use doors::Found;

pub fn lookup(list: &[u8], address: u32) -> Found {
    let (records, rest) = list.as_chunks();
    if !rest.is_empty() {
        return refused(refusal::BAD_LIST_LENGTH, 0);
    }
    let mut best = DISCARD;
    let mut longest = 0;
    for (place, bytes) in records.iter().enumerate() {
        match record::read_announcement(*bytes) {
            // Of two records for one prefix the later counts.
            Ok((prefix, hop)) if prefix.begins(address) && prefix.length >= longest => {
                longest = prefix.length;
                best = hop;
            }
            Ok(_) => {}
            Err(number) => return refused(number, place),
        }
    }
    Found { number: 0, hop: best, place: 0 }
}

fn refused(number: u32, place: usize) -> Found {
    Found { number, hop: 0, place: place as u64 }
}
