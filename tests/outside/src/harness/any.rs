//! Runs of calls drawn by chance: updates valid and damaged, lookups, writings with every kind of scratch and output.

use super::{Harness, Trial};
use crate::damage::damage;
use crate::feeds::{bytes, noise, Feeder};
use crate::plain::SCRATCH_WORDS;
use chance::Chance;
use doors::records::RECORD;

/// Memory from zeros, and any calls on it.
pub fn history(round: u64, harness: &mut Harness, chance: &mut Chance) {
    let most = *chance.pick(&[3, 12, 40, 40, 150, 150, 600, 3000]);
    let slots = 1 + chance.below(most) as usize;
    let mut trial = Trial::from_zeros(harness, format!("round {round}, history"), slots);
    let mut feeder = Feeder::new(chance);
    calls(&mut trial, &mut feeder, 15, chance);
}

/// Memory from zeros and a record at a time, so that a refused one does not end the list: the memory fills up, and
/// stays full while routes come and go.
pub fn one_by_one(round: u64, harness: &mut Harness, chance: &mut Chance) {
    let slots = 1 + chance.below(60) as usize;
    let mut trial = Trial::from_zeros(harness, format!("round {round}, a record at a time"), slots);
    let mut feeder = Feeder::new(chance);
    for _ in 0..40 {
        let record = feeder.record(chance);
        trial.update(&record.bytes());
        feeder.knows(trial.prefixes());
    }
    look_and_write(&mut trial, chance);
}

pub fn calls(trial: &mut Trial, feeder: &mut Feeder, calls: u64, chance: &mut Chance) {
    feeder.knows(trial.prefixes());
    for _ in 0..calls {
        match chance.below(4) {
            0 => lookups(trial, chance),
            1 => write(trial, chance),
            _ => {
                let list = any_list(feeder, chance);
                trial.update(&list);
                feeder.knows(trial.prefixes());
            }
        }
    }
    look_and_write(trial, chance);
}

fn look_and_write(trial: &mut Trial, chance: &mut Chance) {
    lookups(trial, chance);
    write(trial, chance);
}

/// A feed, valid or damaged, or bytes that nobody meant as one.
pub fn any_list(feeder: &mut Feeder, chance: &mut Chance) -> Vec<u8> {
    if chance.happens(0.05) {
        let length = chance.below(60) as usize;
        return noise(length, chance);
    }
    let records = *chance.pick(&[0, 1, 1, 2, 5, 12, 40]);
    let mut list = bytes(&feeder.feed(records, chance));
    if chance.happens(0.1) {
        // Nobody says that this one is held.
        list.extend(feeder.prefix(chance).withdrawn().bytes());
    }
    if chance.happens(0.35) {
        damage(&mut list, chance);
    }
    list
}

/// Some addresses at the boundaries of what is held, and some anywhere.
fn lookups(trial: &mut Trial, chance: &mut Chance) {
    let held = trial.prefixes();
    let mut addresses: Vec<u32> = (0..4).map(|_| chance.bits() as u32).collect();
    for _ in 0..held.len().min(6) {
        addresses.extend(chance.pick(&held).boundary());
    }
    trial.lookups(&addresses);
}

/// The scratch is as long as it has to be, mostly, and holds anything. The output is as long as the table, or a little
/// shorter or longer.
fn write(trial: &mut Trial, chance: &mut Chance) {
    let (slots, asked) = (trial.slots(), SCRATCH_WORDS * trial.slots());
    let words = if chance.happens(0.9) {
        asked
    } else {
        *chance.pick(&[0, slots, 2 * slots, asked - slots, asked.saturating_sub(1), asked + 1, 2 * asked])
    };
    let scratch: Vec<u64> =
        if chance.happens(0.3) { vec![0; words] } else { (0..words).map(|_| chance.bits()).collect() };
    let output = noise(room_for(trial.records(), chance), chance);
    trial.write(&scratch, &output);
}

/// Room for so many records, or a little less or more.
pub fn room_for(records: usize, chance: &mut Chance) -> usize {
    let exact = RECORD * records;
    *chance.pick(&[exact, exact, exact + 1, exact + 100, exact.saturating_sub(1), exact.saturating_sub(RECORD), 0])
}
