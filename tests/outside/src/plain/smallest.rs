//! The smallest table, as document 01 and item 2 of document 02 define it. The definition speaks of all strings of at
//! most 32 bits; a string with no held route below it has one hop throughout, so nothing below it is visited.

use super::{Ledger, Prefix, DISCARD};
use doors::records::Fields;
use std::collections::BTreeSet;

/// A string with its set of hops and, where they may differ from it, its two children.
struct Node {
    string: Prefix,
    set: BTreeSet<u16>,
    children: Vec<Node>,
}

/// The set of a string is its children's common part or, where that is empty, their union. `above` is the hop of the
/// longest held prefix that is shorter than the string, discard where there is none.
fn node(ledger: &Ledger, string: Prefix, above: u16) -> Node {
    let hop = ledger.held(string).unwrap_or(above);
    if !ledger.holds_below(string) {
        return Node { string, set: BTreeSet::from([hop]), children: Vec::new() };
    }
    let child = |bit| node(ledger, string.child(bit).expect("something is held below"), hop);
    let (left, right) = (child(false), child(true));
    let common = &left.set & &right.set;
    let set = if common.is_empty() { &left.set | &right.set } else { common };
    Node { string, set, children: vec![left, right] }
}

/// Going down: no entry if the hop in force above is in the set, otherwise one with the least member.
fn give_entries(node: &Node, in_force: u16, table: &mut Vec<Fields>) {
    let hop = if node.set.contains(&in_force) {
        in_force
    } else {
        let hop = *node.set.first().expect("no set is empty");
        table.push(node.string.announced(hop));
        hop
    };
    for child in &node.children {
        give_entries(child, hop, table);
    }
}

/// The smallest table's entries in the order of the written table. Above the empty string discard is in force.
pub fn smallest(ledger: &Ledger) -> Vec<Fields> {
    let mut table = Vec::new();
    give_entries(&node(ledger, Prefix::EMPTY, DISCARD), DISCARD, &mut table);
    table.sort_by_key(|entry| (entry.address, entry.length));
    table
}
