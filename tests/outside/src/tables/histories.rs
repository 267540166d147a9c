//! Another way to the same forwarding.

use crate::feeds::{bytes, Feeder};
use crate::plain::{Ledger, Prefix, DISCARD};
use chance::Chance;
use doors::records::Fields;

/// A list after which every address has the hop that it has in this ledger, in an order of its own: some routes are
/// announced with another hop first, others come and go, and others say what is so anyway: of a half of a held prefix
/// what the prefix says, and discard where no default route is held.
pub fn same_forwarding(ledger: &Ledger, chance: &mut Chance) -> Vec<u8> {
    let mut feeder = Feeder::scattered(chance);
    let mut timed = Timed::default();
    let mut named: Vec<Prefix> = ledger.routes().map(|(prefix, _)| prefix).collect();
    for (prefix, hop) in ledger.routes() {
        if chance.happens(0.3) {
            timed.one_then_other(feeder.announce(prefix, chance), prefix.announced(hop), chance);
        } else {
            timed.at_any_time(prefix.announced(hop), chance);
        }
        let half = prefix.child(chance.happens(0.5)).filter(|&half| ledger.held(half).is_none());
        if let Some(half) = half.filter(|_| chance.happens(0.2)) {
            timed.at_any_time(half.announced(hop), chance);
            named.push(half);
        }
    }
    if ledger.held(Prefix::EMPTY).is_none() && chance.happens(0.5) {
        timed.at_any_time(Prefix::EMPTY.announced(DISCARD), chance);
        named.push(Prefix::EMPTY);
    }
    for _ in 0..chance.below(8) {
        let passing = feeder.prefix(chance);
        if !named.contains(&passing) {
            timed.one_then_other(feeder.announce(passing, chance), passing.withdrawn(), chance);
            named.push(passing);
        }
    }
    timed.list()
}

/// Records, each at a time of its own.
#[derive(Default)]
struct Timed(Vec<(u64, Fields)>);

impl Timed {
    fn at_any_time(&mut self, record: Fields, chance: &mut Chance) {
        self.0.push((chance.bits(), record));
    }

    fn one_then_other(&mut self, one: Fields, other: Fields, chance: &mut Chance) {
        let (a, b) = (chance.bits(), chance.bits());
        self.0.push((a.min(b), one));
        self.0.push((a.max(b), other));
    }

    /// The records in the order of their times; where two times are equal, in the order in which they came.
    fn list(mut self) -> Vec<u8> {
        self.0.sort_by_key(|&(time, _)| time);
        bytes(&self.0.iter().map(|&(_, record)| record).collect::<Vec<_>>())
    }
}
