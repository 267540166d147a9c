//! Lent memory, read as docs/LAYOUT.md says: any four slices are refused or hold a ledger. For rubbish memory and for
//! our own.

use crate::plain::{Ledger, Prefix, HIGHEST_HOP, MOST_SLOTS, WIDTH};
use doors::Memory;
use std::collections::BTreeSet;

/// The refusal that every call gives for this memory: 1 for slices that are no memory, 2 for memory that holds no
/// ledger.
pub fn refusal(memory: &Memory) -> Option<u32> {
    let slots = memory.up.len();
    let alike = [&memory.lo, &memory.hi, &memory.hop].iter().all(|slice| slice.len() == slots);
    if !alike || slots == 0 || slots > MOST_SLOTS {
        Some(1)
    } else if memory.up[0] as usize > slots {
        Some(2)
    } else {
        None
    }
}

/// The ledger that the memory holds, or the refusal.
pub fn read(memory: &Memory) -> Result<Ledger, u32> {
    match refusal(memory) {
        Some(number) => Err(number),
        None => {
            let mut ledger = Ledger::default();
            visit(memory, 0, Prefix::EMPTY, &mut |slot, string| {
                ledger.set(string, stored_hop(memory.hop[slot]));
            });
            Ok(ledger)
        }
    }
}

/// Passes every string that has a slot, with its slot. A mark names one parent and one side, so no slot is passed
/// twice.
fn visit(memory: &Memory, slot: usize, string: Prefix, pass: &mut impl FnMut(usize, Prefix)) {
    pass(slot, string);
    for bit in [false, true] {
        if let (Some(longer), Some(child)) = (string.child(bit), child(memory, slot, bit)) {
            visit(memory, child, longer, pass);
        }
    }
}

fn link(memory: &Memory, slot: usize, bit: bool) -> usize {
    let links = if bit { &memory.hi } else { &memory.lo };
    links[slot] as usize
}

/// A link counts only if it is answered: the slot that it names, other than 0, carries the mark of this parent and this
/// side.
fn child(memory: &Memory, slot: usize, bit: bool) -> Option<usize> {
    let named = link(memory, slot, bit);
    let mark = 2 * slot + if bit { 2 } else { 1 };
    (named != 0 && memory.up.get(named).is_some_and(|&up| up as usize == mark)).then_some(named)
}

/// Stored is the hop and 1; a number that stands for no hop that may be announced is none.
pub fn stored_hop(stored: u32) -> Option<u16> {
    let hop = u16::try_from(stored.checked_sub(1)?).ok()?;
    (hop <= HIGHEST_HOP).then_some(hop)
}

/// What is not tidy in a memory that holds a ledger, the first thing found. Our calls keep memory from zeros tidy.
pub fn untidy(memory: &Memory) -> Option<String> {
    let mut used = BTreeSet::new();
    let mut fault = None;
    visit(memory, 0, Prefix::EMPTY, &mut |slot, string| {
        used.insert(slot);
        fault = fault.take().or_else(|| untidy_in_use(memory, slot, string));
    });
    let free: BTreeSet<usize> = (0..memory.up.len()).filter(|slot| !used.contains(slot)).collect();
    let dirty = |&&slot: &&usize| [&memory.up, &memory.hi, &memory.hop].iter().any(|slice| slice[slot] != 0);
    fault
        .or_else(|| free.iter().find(dirty).map(|slot| format!("slot {slot} is free and not zero")))
        .or_else(|| untidy_chain(memory, &free))
}

/// A slot in use is held or leads on, the first one apart; its links and its hop stand for something or are 0.
fn untidy_in_use(memory: &Memory, slot: usize, string: Prefix) -> Option<String> {
    let at = |what: &str| Some(format!("slot {slot}, of {string:?}, {what}"));
    let children = [false, true].map(|bit| child(memory, slot, bit).filter(|_| string.length < WIDTH));
    let stale = [false, true].iter().zip(children).any(|(&bit, child)| child.is_none() && link(memory, slot, bit) != 0);
    let held = stored_hop(memory.hop[slot]).is_some();
    if stale {
        at("has a link that does not count")
    } else if !held && memory.hop[slot] != 0 {
        at("has a number for a hop that stands for none")
    } else if slot != 0 && !held && children == [None, None] {
        at("is neither held nor leads on")
    } else {
        None
    }
}

/// The chain has every free slot once: 0 in its head stands for slot 1, and 0 in a free slot for the slot behind.
fn untidy_chain(memory: &Memory, free: &BTreeSet<usize>) -> Option<String> {
    let named = |number: u32, otherwise: usize| if number == 0 { otherwise } else { number as usize };
    let mut left = free.clone();
    let mut slot = named(memory.up[0], 1);
    while left.remove(&slot) {
        slot = named(memory.lo[slot], slot + 1);
    }
    if let Some(first) = left.first() {
        Some(format!("the chain comes to slot {slot} and leaves out {} slots, first {first}", left.len()))
    } else if slot < memory.up.len() {
        Some(format!("the chain has every free slot and goes on to slot {slot}"))
    } else {
        None
    }
}
