//! Bursts of updates as a feed brings them: close together, most of them hop changes, some routes that go or come.

use crate::generator::{Kind, Prefix, Table, SPECIFIC};
use chance::Chance;
use doors::records::Fields;
use std::collections::BTreeMap;

/// The length of the blocks in which the changes of one burst lie.
const BLOCK: u8 = 15;

/// Lists of `size` records each, to be applied one after the other to the ledger that holds the table.
pub fn draw(table: &Table, size: usize, count: usize, chance: &mut Chance) -> Vec<Vec<u8>> {
    let held = table.specifics().iter().map(|route| (route.prefix, route.hop)).collect();
    let mut churn = Churn { table, chance, held, gone: Vec::new() };
    (0..count).map(|_| churn.burst(size)).collect()
}

struct Churn<'a> {
    table: &'a Table,
    chance: &'a mut Chance,
    held: BTreeMap<Prefix, u16>,
    gone: Vec<Prefix>,
}

impl Churn<'_> {
    fn burst(&mut self, size: usize) -> Vec<u8> {
        let blocks = self.blocks();
        let mut near: Vec<Prefix> = blocks.iter().flat_map(|block| self.held_in(*block)).collect();
        near.sort();
        near.dedup();
        let mut list = Vec::new();
        for _ in 0..size {
            let part = self.chance.part();
            let record = if part < 0.8 && !near.is_empty() {
                self.change(&near)
            } else if part < 0.9 && !near.is_empty() {
                self.withdraw(&mut near)
            } else {
                self.arrive(&blocks, &mut near)
            };
            list.extend(record.bytes());
        }
        list
    }

    /// In a real table 1 to 3 blocks around /24s that are held. A uniform one has no such places: its block is all.
    fn blocks(&mut self) -> Vec<Prefix> {
        match self.table.kind {
            Kind::Uniform => vec![Prefix::DEFAULT],
            Kind::Real => {
                let specifics = self.held_in(Prefix::DEFAULT);
                let blocks = 1 + self.chance.below(3);
                (0..blocks).map(|_| Prefix::of(self.some(&specifics).address, BLOCK)).collect()
            }
        }
    }

    /// The routes in a block that a burst may touch: of a real table the /24s.
    fn held_in(&self, block: Prefix) -> Vec<Prefix> {
        let from = Prefix { address: block.first(), length: 0 };
        let to = Prefix { address: block.last(), length: u8::MAX };
        let touched = |prefix: &Prefix| self.table.kind == Kind::Uniform || prefix.length == SPECIFIC;
        self.held.range(from..=to).map(|(prefix, _)| *prefix).filter(touched).collect()
    }

    fn some(&mut self, of: &[Prefix]) -> Prefix {
        of[self.chance.below(of.len() as u64) as usize]
    }

    fn change(&mut self, near: &[Prefix]) -> Fields {
        let prefix = self.some(near);
        let hop = self.table.hops.draw_other(self.held[&prefix], self.chance);
        self.announce(prefix, hop)
    }

    fn withdraw(&mut self, near: &mut Vec<Prefix>) -> Fields {
        let prefix = near.swap_remove(self.chance.below(near.len() as u64) as usize);
        self.held.remove(&prefix);
        self.gone.push(prefix);
        Fields::withdrawal(prefix.address, prefix.length)
    }

    /// A route that was withdrawn returns, or a new one comes: a /24 in a block of a real table. Nothing new comes to a
    /// uniform table.
    fn arrive(&mut self, blocks: &[Prefix], near: &mut Vec<Prefix>) -> Fields {
        let back = self
            .gone
            .iter()
            .rposition(|gone| blocks.iter().any(|block| Prefix::of(gone.address, block.length) == *block));
        let prefix = match back {
            Some(place) if self.table.kind == Kind::Uniform || self.chance.happens(0.5) => self.gone.swap_remove(place),
            _ if self.table.kind == Kind::Uniform => return self.change(near),
            _ => {
                let block = self.some(blocks);
                Prefix::of(block.some_address(self.chance), SPECIFIC)
            }
        };
        let hop = self.table.hops.draw(self.chance);
        if !self.held.contains_key(&prefix) {
            near.push(prefix);
        }
        self.announce(prefix, hop)
    }

    fn announce(&mut self, prefix: Prefix, hop: u16) -> Fields {
        self.held.insert(prefix, hop);
        Fields::announcement(prefix.address, prefix.length, hop)
    }
}
