//! The same job in plain Rust, for comparison: safe Rust and the standard library, as an engineer would write it who
//! has nothing to prove. It shares no code with the library, only the shapes of answers and of records (`doors`).
//!
//! The ledger is a binary trie in an arena of nodes, one node a slot. A node that is given back goes on a free list
//! through the nodes. The memory is the ledger's own, so refusal 2 cannot come up, and refusal 1 only for a scratch.

mod list;
mod record;
mod refusal;
mod smallest;

use doors::records::RECORD;
use doors::{Counted, Found};

pub use list::lookup as lookup_list;
pub use record::HIGHEST_HOP;
use record::{Change, Prefix};

/// The number of the node of the empty prefix. No link leads to it, so as a link it says that there is no child.
const ROOT: u32 = 0;
const NONE: u32 = 0;

#[derive(Clone, Copy)]
struct Node {
    children: [u32; 2],
    /// The hop held for this prefix and 1; 0 where none is. An `Option` of a hop makes lookups slower.
    held: u32,
}

const EMPTY: Node = Node { children: [NONE; 2], held: 0 };

pub struct Ledger {
    nodes: Vec<Node>,
    slots: usize,
    /// The first node of the free list; the next one is a free node's first child.
    free: u32,
    /// The nodes that are not free.
    used: usize,
}

impl Ledger {
    pub fn new(slots: usize) -> Ledger {
        let mut nodes = Vec::with_capacity(slots);
        nodes.push(EMPTY);
        Ledger { nodes, slots, free: NONE, used: 1 }
    }

    /// Every route is forgotten; the memory is kept.
    pub fn clear(&mut self) {
        self.nodes.truncate(1);
        self.nodes[ROOT as usize] = EMPTY;
        self.free = NONE;
        self.used = 1;
    }

    /// Applies a list of records in order, up to the first that is refused.
    pub fn update(&mut self, list: &[u8]) -> Counted {
        let (records, rest) = list.as_chunks();
        if !rest.is_empty() {
            return Counted { number: refusal::BAD_LIST_LENGTH, count: 0 };
        }
        for (count, record) in records.iter().enumerate() {
            if let Err(number) = self.apply(*record) {
                return Counted { number, count: count as u64 };
            }
        }
        Counted { number: 0, count: records.len() as u64 }
    }

    /// The hop of the longest prefix held that begins the address; discard, which is 0, where there is none.
    pub fn lookup(&self, address: u32) -> Found {
        let mut node = &self.nodes[ROOT as usize];
        let mut held = node.held;
        let mut bits = address;
        loop {
            let child = node.children[first_bit(bits)];
            if child == NONE {
                return Found { number: 0, hop: held.saturating_sub(1), place: 0 };
            }
            node = &self.nodes[child as usize];
            if node.held != 0 {
                held = node.held;
            }
            bits <<= 1;
        }
    }

    fn apply(&mut self, record: [u8; RECORD]) -> Result<(), u32> {
        match record::read(record)? {
            Change::Announce(prefix, hop) => self.announce(prefix, hop),
            Change::Withdraw(prefix) => self.withdraw(prefix),
        }
    }

    fn announce(&mut self, prefix: Prefix, hop: u32) -> Result<(), u32> {
        let mut at = ROOT;
        let mut bits = prefix.address;
        let mut left = prefix.length as usize;
        while left > 0 {
            let child = self.nodes[at as usize].children[first_bit(bits)];
            if child == NONE {
                break;
            }
            at = child;
            bits <<= 1;
            left -= 1;
        }
        if left > self.slots - self.used {
            return Err(refusal::NO_SLOTS);
        }
        for _ in 0..left {
            let child = self.take();
            self.nodes[at as usize].children[first_bit(bits)] = child;
            at = child;
            bits <<= 1;
        }
        self.nodes[at as usize].held = hop + 1;
        Ok(())
    }

    fn withdraw(&mut self, prefix: Prefix) -> Result<(), u32> {
        let mut at = ROOT;
        let mut bits = prefix.address;
        // The last node on the way that stays whatever becomes of those below it, and the side of it that leads there.
        let mut fork = (ROOT, first_bit(bits));
        for _ in 0..prefix.length {
            let node = &self.nodes[at as usize];
            let side = first_bit(bits);
            if node.held != 0 || node.children[1 - side] != NONE {
                fork = (at, side);
            }
            at = node.children[side];
            if at == NONE {
                return Err(refusal::NOT_HELD);
            }
            bits <<= 1;
        }
        let node = &mut self.nodes[at as usize];
        if node.held == 0 {
            return Err(refusal::NOT_HELD);
        }
        node.held = 0;
        if at != ROOT && node.children == [NONE; 2] {
            self.cut(fork.0, fork.1);
        }
        Ok(())
    }

    /// Gives back the nodes below one side of a node: a chain, each with at most one child.
    fn cut(&mut self, parent: u32, side: usize) {
        let mut at = std::mem::replace(&mut self.nodes[parent as usize].children[side], NONE);
        while at != NONE {
            let [zero, one] = self.nodes[at as usize].children;
            self.nodes[at as usize].children[0] = self.free;
            self.free = at;
            self.used -= 1;
            at = zero | one;
        }
    }

    /// An empty node. The caller has seen that there is one left.
    fn take(&mut self) -> u32 {
        self.used += 1;
        if self.free == NONE {
            self.nodes.push(EMPTY);
            return self.nodes.len() as u32 - 1;
        }
        let taken = self.free;
        self.free = self.nodes[taken as usize].children[0];
        self.nodes[taken as usize] = EMPTY;
        taken
    }
}

fn first_bit(bits: u32) -> usize {
    (bits >> 31) as usize
}
