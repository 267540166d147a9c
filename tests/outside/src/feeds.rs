//! Random feeds of valid records.

use crate::plain::{self, Ledger, Prefix, DISCARD, HIGHEST_HOP, WIDTH};
use chance::Chance;
use doors::records::Fields;

/// The hops of one of the words that a set lies in: 1 to this in the first word, and so on.
pub const WORD_HOPS: u16 = 64;

/// Where the next records of a feed come from. Routes come and go within a few blocks of addresses and with few hops,
/// so that neighbours share hops, routes cover each other and tables compress.
pub struct Feeder {
    blocks: Vec<Prefix>,
    /// How many bits a drawn prefix has at most behind those of its block.
    spread: u8,
    hops: Vec<u16>,
    /// What is held if every record so far was taken.
    held: Vec<Prefix>,
}

impl Feeder {
    pub fn new(chance: &mut Chance) -> Feeder {
        let spread = *chance.pick(&[2, 4, 6, 8, 10]);
        let blocks = (0..=chance.below(4)).map(|_| any_block(spread, chance)).collect();
        let hops = (0..*chance.pick(&[2, 2, 3, 3, 5, 20])).map(|_| any_hop(chance)).collect();
        Feeder { blocks, spread, hops, held: Vec::new() }
    }

    /// A feeder whose prefixes lie anywhere: it barely compresses, and needs the most slots.
    pub fn scattered(chance: &mut Chance) -> Feeder {
        let hops = (0..20).map(|_| any_hop(chance)).collect();
        Feeder { blocks: vec![Prefix::EMPTY], spread: WIDTH, hops, held: Vec::new() }
    }

    /// What is really held, where records may have been refused.
    pub fn knows(&mut self, held: Vec<Prefix>) {
        self.held = held;
    }

    /// A prefix in a block or, now and then, one that begins a held prefix or goes on from it.
    pub fn prefix(&self, chance: &mut Chance) -> Prefix {
        if self.held.is_empty() || chance.happens(0.8) {
            return self.in_a_block(chance);
        }
        let held = *chance.pick(&self.held);
        match held.child(chance.happens(0.5)) {
            Some(child) if chance.happens(0.5) => child,
            _ => Prefix::of(held.address, chance.below(u64::from(held.length) + 1) as u8),
        }
    }

    fn in_a_block(&self, chance: &mut Chance) -> Prefix {
        let block = *chance.pick(&self.blocks);
        let length = block.length + chance.below(u64::from(self.spread) + 1) as u8;
        let behind = block.address ^ block.last();
        Prefix::of(block.address | (chance.bits() as u32 & behind), length)
    }

    pub fn announce(&mut self, prefix: Prefix, chance: &mut Chance) -> Fields {
        if !self.held.contains(&prefix) {
            self.held.push(prefix);
        }
        prefix.announced(self.hop(chance))
    }

    pub fn hop(&self, chance: &mut Chance) -> u16 {
        *chance.pick(&self.hops)
    }

    fn withdraw(&mut self, chance: &mut Chance) -> Fields {
        let place = chance.below(self.held.len() as u64) as usize;
        self.held.swap_remove(place).withdrawn()
    }

    /// A new route, another hop for a held one, or a withdrawal.
    pub fn record(&mut self, chance: &mut Chance) -> Fields {
        let prefix = self.prefix(chance);
        if self.held.is_empty() || chance.happens(0.7) {
            self.announce(prefix, chance)
        } else if chance.happens(0.1) {
            self.announce(Prefix::EMPTY, chance)
        } else if chance.happens(0.5) {
            let held = *chance.pick(&self.held);
            self.announce(held, chance)
        } else {
            self.withdraw(chance)
        }
    }

    pub fn feed(&mut self, records: u64, chance: &mut Chance) -> Vec<Fields> {
        (0..records).map(|_| self.record(chance)).collect()
    }
}

/// A block anywhere that has so many bits behind it.
fn any_block(spread: u8, chance: &mut Chance) -> Prefix {
    let length = chance.below(u64::from(WIDTH - spread) + 1) as u8;
    Prefix::of(chance.bits() as u32, length)
}

/// Any hop, but often discard or the first or last hop of a word, so that hops meet which have the same place in two
/// words, and neighbours across two words.
pub fn any_hop(chance: &mut Chance) -> u16 {
    if chance.happens(0.1) {
        DISCARD
    } else if chance.happens(0.5) {
        let word = chance.below(u64::from(HIGHEST_HOP / WORD_HOPS)) as u16;
        word * WORD_HOPS + *chance.pick(&[1, WORD_HOPS])
    } else {
        1 + chance.below(u64::from(HIGHEST_HOP)) as u16
    }
}

/// Announcements that need all of so many slots, and one that would need one slot more. They are of long prefixes
/// anywhere, up to the first without room; that one is shortened until it has room, and just before that it is one slot
/// too long.
pub fn filling(slots: usize, chance: &mut Chance) -> (Vec<Fields>, Fields) {
    let feeder = Feeder::scattered(chance);
    let (mut ledger, mut list) = (Ledger::default(), Vec::new());
    loop {
        let (address, hop) = (chance.bits() as u32, feeder.hop(chance));
        let longest = WIDTH - chance.below(8) as u8;
        let mut refused = None;
        for length in (0..=longest).rev() {
            let record = Prefix::of(address, length).announced(hop);
            if plain::update(&mut ledger, slots, &record.bytes()).number == 0 {
                list.push(record);
                break;
            }
            refused = Some(record);
        }
        if let Some(refused) = refused {
            return (list, refused);
        }
    }
}

pub fn bytes(records: &[Fields]) -> Vec<u8> {
    records.iter().flat_map(|record| record.bytes()).collect()
}

/// Bytes that nobody meant as anything.
pub fn noise(length: usize, chance: &mut Chance) -> Vec<u8> {
    (0..length).map(|_| chance.bits() as u8).collect()
}
