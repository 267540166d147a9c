//! Lookup in record lists.

use super::{Call, Harness, LIST_LOOKUP};
use crate::damage::damage;
use crate::feeds::{bytes, noise, Feeder};
use crate::plain::{self, Prefix};
use crate::show;
use chance::Chance;

/// Lists of announcements, in which prefixes come more than once; some have a withdrawal or another fault, some are
/// noise.
pub fn lookups(round: u64, harness: &mut Harness, chance: &mut Chance) {
    let mut feeder = Feeder::new(chance);
    let most = *chance.pick(&[2, 10, 10, 60, 300]);
    let prefixes: Vec<Prefix> = (0..chance.below(most)).map(|_| feeder.prefix(chance)).collect();
    let announcements: Vec<_> = prefixes.iter().map(|&prefix| feeder.announce(prefix, chance)).collect();
    let mut list = bytes(&announcements);
    for times in 0..4 {
        if times > 0 {
            damage(&mut list, chance);
        }
        let mut addresses = vec![chance.bits() as u32];
        (0..prefixes.len().min(3)).for_each(|_| addresses.extend(chance.pick(&prefixes).boundary()));
        addresses.iter().for_each(|&address| lookup(round, &list, address, harness));
    }
    lookup(round, &noise(chance.below(40) as usize, chance), chance.bits() as u32, harness);
}

/// A long list, once a run: all announcements, and then with something wrong far behind its start.
pub fn long_list(harness: &mut Harness, chance: &mut Chance) {
    let feeder = Feeder::scattered(chance);
    let announcements: Vec<_> = (0..5000).map(|_| feeder.prefix(chance).announced(feeder.hop(chance))).collect();
    let mut list = bytes(&announcements);
    for _ in 0..4 {
        lookup(0, &list, chance.bits() as u32, harness);
    }
    damage(&mut list, chance);
    lookup(0, &list, chance.bits() as u32, harness);
}

fn lookup(round: u64, list: &[u8], address: u32, harness: &mut Harness) {
    let came = harness.ours.lookup_list(list, address);
    harness.note(Call::ListLookup, came.number);
    let tried = || format!("round {round}: lookup of {address:#010x} in {}", show::list(list));
    harness.verdict.equal(LIST_LOOKUP, &plain::lookup_list(list, address), &came, tried);
}
