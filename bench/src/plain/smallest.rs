//! The smallest table: sets of hops upward, entries downward.

use super::record::DISCARD;
use super::{refusal, Ledger, Node, NONE, ROOT};
use doors::records::{Fields, RECORD};
use doors::{Counted, SCRATCH_WORDS};
use std::array::from_fn;

impl Ledger {
    /// Writes the smallest table into `out`. The scratch is left zero.
    pub fn write(&self, scratch: &mut [u64], out: &mut [u8]) -> Counted {
        if scratch.len() != SCRATCH_WORDS * self.slots {
            return Counted { number: refusal::BAD_SCRATCH, count: 0 };
        }
        let (words, _) = scratch.as_chunks_mut();
        let mut sets = Sets { nodes: &self.nodes, words, splits: 0 };
        let top = sets.form(ROOT, DISCARD);
        let count = sets.splits + usize::from(!top.has(DISCARD));
        let (records, _) = out.as_chunks_mut();
        let number = if records.len() < count {
            refusal::SHORT_OUTPUT
        } else {
            let mut table = Table { nodes: &self.nodes, words, records: records.iter_mut() };
            table.enter(ROOT, DISCARD, DISCARD, 0, 0);
            0
        };
        scratch.fill(0);
        Counted { number, count: count as u64 }
    }
}

/// The words of a set of hops.
const WORDS: usize = SCRATCH_WORDS - 1;

/// A set of hops: words with bit h - 1 for hop h, counted from the first word's lowest on, and discard beside them.
#[derive(Clone, Copy)]
struct Hops {
    words: [u64; WORDS],
    discard: bool,
}

impl Hops {
    /// Each word is made by itself: to store the bit into one of four zeros was slower. Discard's bit is in no word.
    fn only(hop: u32) -> Hops {
        let bit = hop.wrapping_sub(1);
        let word = |at| u64::from(bit / u64::BITS == at as u32) << (bit % u64::BITS);
        Hops { words: from_fn(word), discard: hop == DISCARD }
    }

    fn has(self, hop: u32) -> bool {
        match hop.checked_sub(1) {
            Some(bit) => self.words[(bit / u64::BITS) as usize] >> (bit % u64::BITS) & 1 == 1,
            None => self.discard,
        }
    }

    fn least(self) -> u32 {
        if self.discard {
            return DISCARD;
        }
        let at = self.words.iter().position(|word| *word != 0).expect("no set is empty");
        at as u32 * u64::BITS + self.words[at].trailing_zeros() + 1
    }

    fn is_empty(self) -> bool {
        self.words.iter().fold(u64::from(self.discard), |all, word| all | word) == 0
    }

    fn common(self, other: Hops) -> Hops {
        Hops { words: from_fn(|at| self.words[at] & other.words[at]), discard: self.discard & other.discard }
    }

    fn union(self, other: Hops) -> Hops {
        Hops { words: from_fn(|at| self.words[at] | other.words[at]), discard: self.discard | other.discard }
    }

    fn scratch(self) -> [u64; SCRATCH_WORDS] {
        let [a, b, c, d] = self.words;
        [a, b, c, d, u64::from(self.discard)]
    }

    fn of([a, b, c, d, discard]: [u64; SCRATCH_WORDS]) -> Hops {
        Hops { words: [a, b, c, d], discard: discard != 0 }
    }
}

impl Node {
    /// The hop in force here.
    fn hop_below(&self, above: u32) -> u32 {
        self.held.checked_sub(1).unwrap_or(above)
    }

    fn is_leaf(&self) -> bool {
        self.children == [NONE; 2]
    }
}

struct Sets<'a> {
    nodes: &'a [Node],
    words: &'a mut [[u64; SCRATCH_WORDS]],
    /// The nodes so far whose children's sets have nothing in common: each costs an entry.
    splits: usize,
}

impl Sets<'_> {
    fn form(&mut self, at: u32, above: u32) -> Hops {
        let node = &self.nodes[at as usize];
        let here = node.hop_below(above);
        let set = if node.is_leaf() {
            Hops::only(here)
        } else {
            let [zero, one] =
                node.children.map(|child| if child == NONE { Hops::only(here) } else { self.form(child, here) });
            let common = zero.common(one);
            if common.is_empty() {
                self.splits += 1;
                zero.union(one)
            } else {
                common
            }
        };
        self.words[at as usize] = set.scratch();
        set
    }
}

struct Table<'a> {
    nodes: &'a [Node],
    words: &'a [[u64; SCRATCH_WORDS]],
    records: std::slice::IterMut<'a, [u8; RECORD]>,
}

impl Table<'_> {
    /// The entries from a node on. `above` is in force above it in the ledger, `chosen` in the table.
    fn enter(&mut self, at: u32, above: u32, mut chosen: u32, address: u32, length: u8) {
        let node = &self.nodes[at as usize];
        let set = Hops::of(self.words[at as usize]);
        if !set.has(chosen) {
            chosen = set.least();
            self.entry(address, length, chosen);
        }
        // A leaf's set is its one hop, which now is in force.
        if node.is_leaf() {
            return;
        }
        let here = node.hop_below(above);
        let sides = [address, address | 1 << (31 - length)];
        for (child, address) in node.children.into_iter().zip(sides) {
            if child != NONE {
                self.enter(child, here, chosen, address, length + 1);
            } else if here != chosen {
                self.entry(address, length + 1, here);
            }
        }
    }

    fn entry(&mut self, address: u32, length: u8, hop: u32) {
        let record = self.records.next().expect("the records were counted before");
        *record = Fields::announcement(address, length, hop as u16).bytes();
    }
}
