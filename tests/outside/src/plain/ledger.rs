//! The ledger: which hop is held for which prefix.

use super::{Prefix, DISCARD, WIDTH};
use std::collections::BTreeMap;

#[derive(Clone, Debug, Default, PartialEq, Eq)]
pub struct Ledger {
    held: BTreeMap<Prefix, u16>,
    /// Of each non-empty string that begins or equals held prefixes, how many; other strings are left out. It is kept
    /// beside the routes so that the slots needed are a length, and need not be counted anew for each record.
    begun: BTreeMap<Prefix, usize>,
}

impl Ledger {
    pub fn held(&self, prefix: Prefix) -> Option<u16> {
        self.held.get(&prefix).copied()
    }

    pub fn routes(&self) -> impl Iterator<Item = (Prefix, u16)> + '_ {
        self.held.iter().map(|(&prefix, &hop)| (prefix, hop))
    }

    pub fn count(&self) -> usize {
        self.held.len()
    }

    /// Makes a prefix hold a hop, or nothing, and says what it held before.
    pub fn set(&mut self, prefix: Prefix, hop: Option<u16>) -> Option<u16> {
        let before = match hop {
            Some(hop) => self.held.insert(prefix, hop),
            None => self.held.remove(&prefix),
        };
        match (before, hop) {
            (None, Some(_)) => prefix.beginnings().for_each(|string| *self.begun.entry(string).or_default() += 1),
            (Some(_), None) => prefix.beginnings().for_each(|string| self.begins_one_less(string)),
            _ => {}
        }
        before
    }

    fn begins_one_less(&mut self, string: Prefix) {
        let begun = self.begun.get_mut(&string).expect("it began a held prefix");
        *begun -= 1;
        if *begun == 0 {
            self.begun.remove(&string);
        }
    }

    /// One slot for the empty string, held or not, and one for each non-empty string that begins or equals some held
    /// prefix.
    pub fn needs(&self) -> usize {
        1 + self.begun.len()
    }

    /// Whether a longer prefix than this string is held that begins with it.
    pub fn holds_below(&self, string: Prefix) -> bool {
        [false, true].into_iter().filter_map(|bit| string.child(bit)).any(|child| self.begun.contains_key(&child))
    }

    /// The hop of the longest held prefix that begins an address, discard where none does: all 33 are tried.
    pub fn longest_match(&self, address: u32) -> u16 {
        (0..=WIDTH).rev().find_map(|length| self.held(Prefix::of(address, length))).unwrap_or(DISCARD)
    }
}
