//! Many slots and the most of them, and long lists, once a run.

use super::{Harness, Trial, MOST_SLOTS};
use crate::feeds::{bytes, filling, Feeder};
use crate::plain::SCRATCH_WORDS;
use chance::Chance;
use doors::records::RECORD;

/// Few enough that the plain program can fill them more than once.
const MANY_SLOTS: usize = 65_536;

/// Scattered routes until the memory is full and one is refused; then some are withdrawn, and others come in their
/// place.
pub fn full_memory(harness: &mut Harness, chance: &mut Chance) {
    let mut trial = Trial::from_zeros(harness, "scattered routes in full memory".to_string(), MANY_SLOTS);
    let feeder = Feeder::scattered(chance);
    for _ in 0..2 {
        // A scattered route needs several slots of its own, so these are more than there is room for.
        let routes: Vec<_> = (0..MANY_SLOTS / 4).map(|_| feeder.prefix(chance).announced(feeder.hop(chance))).collect();
        trial.update(&bytes(&routes));
        whole_table(&mut trial, chance);
        let mut gone = trial.prefixes();
        gone.retain(|_| chance.happens(0.3));
        trial.update(&bytes(&gone.iter().map(|prefix| prefix.withdrawn()).collect::<Vec<_>>()));
    }
}

/// The most slots, down to the last one, and a record that needs one more.
pub fn most_slots(harness: &mut Harness, chance: &mut Chance) {
    let mut trial = Trial::from_zeros(harness, "routes that need every slot".to_string(), MOST_SLOTS);
    let (mut list, refused) = filling(MOST_SLOTS, chance);
    list.push(refused);
    trial.update(&bytes(&list));
    lookups(&mut trial, chance);
    // A table has no more records than routes are held.
    let room = RECORD * trial.prefixes().len();
    trial.write(&vec![u64::MAX; SCRATCH_WORDS * MOST_SLOTS], &vec![0; room]);
}

/// A long list in which routes come and go.
pub fn long_list(harness: &mut Harness, chance: &mut Chance) {
    let mut trial = Trial::from_zeros(harness, "a long list".to_string(), MANY_SLOTS);
    let mut feeder = Feeder::new(chance);
    trial.update(&bytes(&feeder.feed(20_000, chance)));
    whole_table(&mut trial, chance);
}

/// Lookups, then the table into an output that is a byte too short, and into one that just has room.
fn whole_table(trial: &mut Trial, chance: &mut Chance) {
    lookups(trial, chance);
    let room = RECORD * trial.records();
    for room in [room.saturating_sub(1), room] {
        trial.write(&vec![u64::MAX; SCRATCH_WORDS * trial.slots()], &vec![0; room]);
    }
}

fn lookups(trial: &mut Trial, chance: &mut Chance) {
    trial.lookups(&(0..1000).map(|_| chance.bits() as u32).collect::<Vec<_>>());
}
