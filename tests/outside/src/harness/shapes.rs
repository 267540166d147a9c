//! Slices of every odd length: refusal 1, before any other.

use super::{Harness, Trial, MOST_SLOTS};
use crate::feeds::{noise, Feeder};
use crate::plain::SCRATCH_WORDS;
use chance::Chance;
use doors::Memory;

/// No slot and some, and each slice in turn shorter or longer than the others; with each, scratch of other lengths.
pub fn odd_lengths(harness: &mut Harness, chance: &mut Chance) {
    for slots in [0, 1, 2, 33] {
        calls([slots; 4], "all alike".to_string(), harness, chance);
    }
    for slots in [1, 2, 33] {
        for slice in 0..4 {
            for other in [0, slots - 1, slots + 1] {
                let mut lengths = [slots; 4];
                lengths[slice] = other;
                calls(lengths, format!("{lengths:?}"), harness, chance);
            }
        }
    }
}

/// The most slots, and one more.
pub fn most_slots(harness: &mut Harness, chance: &mut Chance) {
    for slots in [MOST_SLOTS, MOST_SLOTS + 1] {
        calls([slots; 4], "all alike".to_string(), harness, chance);
    }
}

/// Four lengths by chance, so small that they are often alike.
pub fn any_lengths(round: u64, harness: &mut Harness, chance: &mut Chance) {
    let lengths = [(); 4].map(|_| chance.below(3) as usize);
    calls(lengths, format!("round {round}, {lengths:?}"), harness, chance);
}

/// Each call, on memory whose head is let through or not, and with a list that has a fault of its own or not: 1 comes
/// first.
fn calls(lengths: [usize; 4], name: String, harness: &mut Harness, chance: &mut Chance) {
    let [lo, hi, up, hop] = lengths.map(|length| vec![0; length]);
    let mut memory = Memory { lo, hi, up, hop };
    let slots = memory.up.len();
    if chance.happens(0.3) {
        memory.up.first_mut().into_iter().for_each(|head| *head = u32::MAX);
    }
    let mut trial = Trial::new(harness, format!("slices: {name}"), memory);
    trial.update(&noise(7, chance));
    trial.update(&Feeder::new(chance).record(chance).bytes());
    trial.lookups(&[chance.bits() as u32]);
    let asked = SCRATCH_WORDS * slots;
    let fewer = (0..SCRATCH_WORDS).map(|words| words * slots);
    for words in fewer.chain([asked.saturating_sub(1), asked, asked + 1]) {
        let scratch: Vec<u64> = (0..words).map(|_| chance.bits()).collect();
        trial.write(&scratch, &noise(24, chance));
    }
}
