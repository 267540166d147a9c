//! Tables to measure on, the same on every machine for one seed. Two kinds: *uniform*, prefixes drawn evenly, which
//! barely compress; and *real*, allocations and their more-specifics laid out as operators announce them.

use crate::plain::HIGHEST_HOP;
use chance::Chance;
use std::collections::BTreeSet;

/// The hops that routes are given: 1 to this.
pub const HOPS: u64 = HIGHEST_HOP as u64;

#[derive(Clone, Copy, Debug, PartialEq, Eq, PartialOrd, Ord)]
pub struct Prefix {
    pub address: u32,
    pub length: u8,
}

#[derive(Clone, Copy, Debug)]
pub struct Route {
    pub prefix: Prefix,
    pub hop: u16,
}

impl Prefix {
    pub const DEFAULT: Prefix = Prefix { address: 0, length: 0 };

    /// The prefix of this length that begins an address.
    pub fn of(address: u32, length: u8) -> Prefix {
        Prefix { address: address & !Prefix::behind(length), length }
    }

    /// The bits behind a length.
    fn behind(length: u8) -> u32 {
        u32::MAX.checked_shr(u32::from(length)).unwrap_or(0)
    }

    pub fn first(self) -> u32 {
        self.address
    }

    pub fn last(self) -> u32 {
        self.address | Prefix::behind(self.length)
    }

    /// An address in it, drawn evenly.
    pub fn some_address(self, chance: &mut Chance) -> u32 {
        self.address | chance.bits() as u32 & Prefix::behind(self.length)
    }
}

#[derive(Clone, Copy, Debug, PartialEq, Eq)]
pub enum Kind {
    Uniform,
    Real,
}

impl Kind {
    pub fn name(self) -> &'static str {
        match self {
            Kind::Uniform => "uniform",
            Kind::Real => "real",
        }
    }

    /// How much more one hop is used than the next: evenly, or by Zipf's law.
    fn exponent(self) -> f64 {
        match self {
            Kind::Uniform => 0.0,
            Kind::Real => 1.3,
        }
    }
}

/// The hops by their weight.
pub struct Hops {
    /// The hop of each rank, and the chance of a rank up to it.
    ranks: Vec<(u16, f64)>,
}

impl Hops {
    /// The weight of rank k is k to the power of -exponent. Which hop has which rank is shuffled, as the numbers of
    /// hops say nothing about their use.
    fn new(kind: Kind, chance: &mut Chance) -> Hops {
        let mut names: Vec<u16> = (1..=HOPS as u16).collect();
        shuffle(&mut names, chance);
        let weights: Vec<f64> = (1..=names.len()).map(|rank| (rank as f64).powf(-kind.exponent())).collect();
        let total: f64 = weights.iter().sum();
        let mut so_far = 0.0;
        let up_to = weights.iter().map(|weight| {
            so_far += weight / total;
            so_far
        });
        Hops { ranks: names.into_iter().zip(up_to).collect() }
    }

    pub fn draw(&self, chance: &mut Chance) -> u16 {
        let part = chance.part();
        let rank = self.ranks.partition_point(|(_, up_to)| *up_to < part);
        self.ranks[rank.min(self.ranks.len() - 1)].0
    }

    /// Another hop than this one.
    pub fn draw_other(&self, than: u16, chance: &mut Chance) -> u16 {
        loop {
            let hop = self.draw(chance);
            if hop != than {
                return hop;
            }
        }
    }
}

pub struct Table {
    pub kind: Kind,
    pub hops: Hops,
    /// The default route first, then as the kind draws them; no prefix twice.
    pub routes: Vec<Route>,
}

impl Table {
    pub fn draw(kind: Kind, count: usize, chance: &mut Chance) -> Table {
        let hops = Hops::new(kind, chance);
        let mut drawing = Drawing { chance, hops: &hops, count, seen: BTreeSet::new(), routes: Vec::new() };
        let default = drawing.hops.draw(drawing.chance);
        drawing.add(Prefix::DEFAULT, default);
        match kind {
            Kind::Uniform => drawing.uniform(),
            Kind::Real => drawing.real(),
        }
        let routes = drawing.routes;
        assert_eq!(routes.len(), count, "there are so many routes of this kind");
        Table { kind, hops, routes }
    }

    /// The routes but the default, which is always held.
    pub fn specifics(&self) -> &[Route] {
        &self.routes[1..]
    }
}

/// One slot for the empty string, and one for each other string that begins or equals a prefix.
pub fn slots_needed(routes: &[Route]) -> usize {
    let mut prefixes: Vec<Prefix> = routes.iter().map(|route| route.prefix).collect();
    prefixes.sort();
    let mut slots = 1;
    let mut before = Prefix::DEFAULT;
    for prefix in prefixes {
        // In this order a string that was met before begins the prefix just before.
        let alike = (prefix.address ^ before.address).leading_zeros() as u8;
        slots += usize::from(prefix.length - alike.min(before.length).min(prefix.length));
        before = prefix;
    }
    slots
}

pub fn shuffle<T>(items: &mut [T], chance: &mut Chance) {
    for last in (1..items.len()).rev() {
        items.swap(last, chance.below(last as u64 + 1) as usize);
    }
}

struct Drawing<'a> {
    chance: &'a mut Chance,
    hops: &'a Hops,
    count: usize,
    seen: BTreeSet<Prefix>,
    routes: Vec<Route>,
}

impl Drawing<'_> {
    fn complete(&self) -> bool {
        self.routes.len() >= self.count
    }

    fn add(&mut self, prefix: Prefix, hop: u16) {
        if !self.complete() && self.seen.insert(prefix) {
            self.routes.push(Route { prefix, hop });
        }
    }

    fn uniform(&mut self) {
        while !self.complete() {
            let length = 8 + self.chance.below(25) as u8;
            let prefix = Prefix::of(self.chance.bits() as u32, length);
            let hop = self.hops.draw(self.chance);
            self.add(prefix, hop);
        }
    }

    fn real(&mut self) {
        let mut blocks: Vec<u32> = (1..=223).collect();
        shuffle(&mut blocks, self.chance);
        // One pass over all blocks draws some 365,000 routes, so the largest tables take a second.
        while !self.complete() {
            for block in &blocks {
                let hop = self.hops.draw(self.chance);
                self.region(Prefix { address: block << 24, length: 8 }, hop);
            }
        }
    }

    /// A region is split until it is an allocation or stays empty. `hop` is the one that most of it goes to.
    fn region(&mut self, region: Prefix, mut hop: u16) {
        if self.complete() {
            return;
        }
        if [8, 10, 12].contains(&region.length) && self.chance.happens(0.5) {
            hop = self.hops.draw(self.chance);
        }
        let allocated = allocation_chance(region.length);
        if allocated > 0.0 {
            let part = self.chance.part();
            if part < allocated {
                return self.allocation(region, hop);
            }
            if part < allocated + 0.1 || region.length == SPECIFIC {
                return;
            }
        }
        let length = region.length + 1;
        self.region(Prefix { address: region.address, length }, hop);
        self.region(Prefix { address: region.address | 1 << (32 - length), length }, hop);
    }

    fn allocation(&mut self, cover: Prefix, region_hop: u16) {
        let hop = if self.chance.happens(0.75) { region_hop } else { self.hops.draw(self.chance) };
        let split = cover.length < SPECIFIC && self.chance.happens(0.45);
        if !(split && self.chance.happens(0.15)) {
            self.add(cover, hop);
        }
        if split {
            self.more_specifics(cover, hop);
        }
    }

    /// A run of 4 to 12 neighbours, most of them /24.
    fn more_specifics(&mut self, cover: Prefix, cover_hop: u16) {
        let run = 4 + self.chance.below(9) as u32;
        let start = cover.some_address(self.chance);
        for place in 0..run {
            let address = start.wrapping_add(place << (32 - SPECIFIC));
            let shorter = self.chance.below(u64::from(SPECIFIC - cover.length)) as u8;
            let length = if self.chance.happens(0.85) { SPECIFIC } else { SPECIFIC - shorter };
            let hop = if self.chance.happens(0.7) { cover_hop } else { self.hops.draw(self.chance) };
            if address <= cover.last() && address >= cover.first() {
                self.add(Prefix::of(address, length), hop);
            }
        }
    }
}

/// The longest prefix that is commonly announced.
pub const SPECIFIC: u8 = 24;

/// The chance that a region of this length is an allocation: none down to /9, then growing.
fn allocation_chance(length: u8) -> f64 {
    const POINTS: [(u8, f64); 4] = [(10, 0.004), (16, 0.2), (20, 0.3), (SPECIFIC, 0.8)];
    POINTS.windows(2).find(|ends| (ends[0].0..=ends[1].0).contains(&length)).map_or(0.0, |ends| {
        let ((from, low), (to, high)) = (ends[0], ends[1]);
        low + (high - low) * f64::from(length - from) / f64::from(to - from)
    })
}
