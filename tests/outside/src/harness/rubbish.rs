//! Memory that our calls did not make, or that was damaged after they did. Refusal 2 lets much of it through, and then
//! it holds a ledger; every call has to do to that what document 01 says.

use super::{any, Harness, Trial};
use crate::feeds::{any_hop, bytes, Feeder};
use crate::plain::{HIGHEST_HOP, WIDTH};
use chance::Chance;
use doors::Memory;

type Kind = (&'static str, fn(usize, &mut Chance) -> Memory);

const KINDS: &[Kind] = &[
    ("random words", random_words),
    ("ones", ones),
    ("small words", small_words),
    ("grown at random", grown),
    ("a path that is too deep", deep),
    ("our own, damaged", damaged),
];

/// One memory of each kind, and any calls on it.
pub fn memories(round: u64, harness: &mut Harness, chance: &mut Chance) {
    for (name, make) in KINDS {
        let most = *chance.pick(&[4, 20, 60, 60, 200]);
        let slots = 1 + chance.below(most) as usize;
        let mut memory = make(slots, chance);
        if chance.happens(0.9) {
            memory.up[0] = any_head(slots, chance);
        }
        let mut trial = Trial::new(harness, format!("round {round}, rubbish: {name}"), memory);
        let mut feeder = Feeder::new(chance);
        any::calls(&mut trial, &mut feeder, 8, chance);
    }
}

/// Mostly a head that is let through; the numbers at the limit come often.
fn any_head(slots: usize, chance: &mut Chance) -> u32 {
    let slots = slots as u32;
    let anywhere = chance.below(u64::from(slots) + 1) as u32;
    *chance.pick(&[0, anywhere, anywhere, anywhere, slots - 1, slots, slots + 1])
}

fn random_words(slots: usize, chance: &mut Chance) -> Memory {
    let mut words = || (0..slots).map(|_| chance.bits() as u32).collect();
    Memory { lo: words(), hi: words(), up: words(), hop: words() }
}

fn ones(slots: usize, _: &mut Chance) -> Memory {
    let words = vec![u32::MAX; slots];
    Memory { lo: words.clone(), hi: words.clone(), up: words.clone(), hop: words }
}

/// Words that could be links, marks and hops, and some just outside their range.
fn small_words(slots: usize, chance: &mut Chance) -> Memory {
    let mut below = |n: usize| (0..slots).map(|_| chance.below(n as u64) as u32).collect();
    let (lo, hi, up) = (below(slots + 2), below(slots + 2), below(2 * slots + 3));
    Memory { lo, hi, up, hop: (0..slots).map(|_| any_stored(chance)).collect() }
}

/// A hop is stored with 1 added; 0 stands for none, and so do the numbers behind the last hop's.
fn any_stored(chance: &mut Chance) -> u32 {
    let [hop, last] = [any_hop(chance), HIGHEST_HOP].map(|hop| u32::from(hop) + 1);
    if chance.happens(0.8) {
        hop
    } else {
        *chance.pick(&[0, last, last + 1, last + 2])
    }
}

/// Small words in which most slots are somebody's child: a tree, with parts that nothing leads to, cycles, links and
/// hops that stand for nothing, and slots that hold nothing and lead nowhere.
fn grown(slots: usize, chance: &mut Chance) -> Memory {
    let mut memory = small_words(slots, chance);
    // The nearer a parent lies to its child, the fewer slots want the same place below one parent, and the deeper is
    // the tree.
    let near = *chance.pick(&[1, 2, 3, 8, slots]);
    let (hung, older) = (*chance.pick(&[0.8, 0.95, 1.0]), *chance.pick(&[0.9, 0.98, 1.0]));
    let bare = *chance.pick(&[0.0, 0.5, 0.9]);
    for slot in 1..slots {
        if chance.happens(bare) {
            memory.hop[slot] = 0;
        }
        if chance.happens(hung) {
            let before = slot - 1 - chance.below(near.min(slot) as u64) as usize;
            let anywhere = chance.below(slots as u64) as usize;
            let parent = if chance.happens(older) { before } else { anywhere };
            hang(&mut memory, slot, parent, chance);
        }
    }
    memory
}

fn hang(memory: &mut Memory, slot: usize, parent: usize, chance: &mut Chance) {
    let bit = chance.happens(0.5);
    memory.up[slot] = 2 * parent as u32 + if bit { 2 } else { 1 };
    let links = if bit { &mut memory.hi } else { &mut memory.lo };
    links[parent] = slot as u32;
}

/// One path through all slots, longer than an address where the slots allow it: what lies behind an address's last bit
/// is nobody's.
fn deep(slots: usize, chance: &mut Chance) -> Memory {
    let slots = slots.max(usize::from(WIDTH) + 3);
    let mut memory = small_words(slots, chance);
    (1..slots).for_each(|slot| hang(&mut memory, slot, slot - 1, chance));
    memory
}

/// Memory that our update made, with a few elements changed.
fn damaged(slots: usize, chance: &mut Chance) -> Memory {
    let mut memory = Memory::zeroed(slots);
    let mut feeder = Feeder::new(chance);
    for record in feeder.feed(30, chance) {
        memory.update(&bytes(&[record]));
    }
    for _ in 0..1 + chance.below(8) {
        let slot = chance.below(slots as u64) as usize;
        let other = chance.below(slots as u64) as usize;
        let slice = match chance.below(4) {
            0 => &mut memory.lo,
            1 => &mut memory.hi,
            2 => &mut memory.up,
            _ => &mut memory.hop,
        };
        let (now, small, any) = (slice[slot], chance.below(2 * slots as u64 + 3) as u32, chance.bits() as u32);
        slice[slot] = *chance.pick(&[0, now.wrapping_add(1), now.wrapping_sub(1), slice[other], small, any]);
    }
    memory
}
