//! The ledger of a feed, in memory from zeros that is lent to the proved library, and what the library answers of it.

use crate::feed::Feed;
use crate::words::{Call, Refusal};
use doors::records::RECORD;
use doors::{Counted, Memory, SCRATCH_WORDS};

/// Enough for most feeds, so that few are applied twice.
const FIRST_SLOTS: usize = 4096;

pub struct Ledger {
    memory: Memory,
}

impl Ledger {
    /// Applies a feed with exactly so many slots, or else with as many as it needs.
    pub fn of(feed: &Feed, slots: Option<usize>) -> Result<Ledger, Refusal> {
        let (memory, updated) = match slots {
            Some(slots) => fresh(feed, slots),
            None => grown(feed),
        };
        let slots = memory.up.len();
        Refusal::unless(updated.number, Call::Update { slots }, updated.count)?;
        Ok(Ledger { memory })
    }

    /// The smallest table. It never has more records than the feed, says the header, so that much output is lent.
    pub fn smallest(&self, feed: &Feed) -> Result<Vec<u8>, Refusal> {
        let mut scratch = vec![0; SCRATCH_WORDS * self.slots()];
        let mut output = vec![0; feed.records.len()];
        let written = self.memory.write(&mut scratch, &mut output);
        Refusal::unless(written.number, Call::Writing, written.count)?;
        output.truncate(written.count as usize * RECORD);
        Ok(output)
    }

    pub fn hop(&self, address: u32) -> Result<u32, Refusal> {
        let found = self.memory.lookup(address);
        Refusal::unless(found.number, Call::Lookup, found.place)?;
        Ok(found.hop)
    }

    pub fn slots(&self) -> usize {
        self.memory.up.len()
    }

    // The two counts read the memory by docs/LAYOUT.md. They are true of memory that the library made from zeros, as
    // here: a slot other than 0 has a mark exactly when it is in use, and a stored hop exactly when its prefix is held.

    pub fn used(&self) -> usize {
        1 + self.memory.up.iter().skip(1).filter(|&&mark| mark != 0).count()
    }

    pub fn held(&self) -> usize {
        self.memory.hop.iter().filter(|&&stored| stored != 0).count()
    }
}

/// The hop of an address in the list itself, as a card that was handed it finds it.
pub fn hop_in_list(feed: &Feed, address: u32) -> Result<u32, Refusal> {
    let found = doors::lookup(&feed.records, address);
    Refusal::unless(found.number, Call::ListLookup, found.place)?;
    Ok(found.hop)
}

/// Whether a list is made of whole records is the library's answer, too; what its records say is not asked here.
pub fn whole_records(feed: &Feed) -> Result<(), Refusal> {
    match hop_in_list(feed, 0) {
        Err(refusal) if refusal.of_whole_call() => Err(refusal),
        _ => Ok(()),
    }
}

fn fresh(feed: &Feed, slots: usize) -> (Memory, Counted) {
    let mut memory = Memory::zeroed(slots);
    let updated = memory.update(&feed.records);
    (memory, updated)
}

/// Doubles the slots as long as the library asks for more (9), until it says that so many cannot be lent (1): then the
/// last 9 stands.
fn grown(feed: &Feed) -> (Memory, Counted) {
    let mut last = fresh(feed, FIRST_SLOTS);
    while last.1.number == 9 {
        let next = fresh(feed, 2 * last.0.up.len());
        if next.1.number == 1 {
            break;
        }
        last = next;
    }
    last
}
