//! The daemon's table call: update and writing on a ledger of its own.

use super::any::{any_list, room_for};
use super::{Call, Harness};
use crate::feeds::{bytes, filling, noise, Feeder};
use crate::plain::{self, Prefix, TABLE_SLOTS, WIDTH};
use crate::show;
use crate::verdict::Check;
use chance::Chance;
use doors::records::RECORD;

/// Its number and count.
pub const ANSWER: Check = "table call's answer";
/// Every byte of its output.
pub const OUTPUT: Check = "table call's output";

pub fn tables(round: u64, harness: &mut Harness, chance: &mut Chance) {
    for _ in 0..4 {
        let mut feeder = Feeder::new(chance);
        let mut list = default_or_none(&mut feeder, chance);
        list.extend(any_list(&mut feeder, chance));
        table(round, &list, harness, chance);
    }
    table(round, &crowded(chance), harness, chance);
}

/// A list that needs all slots of the call's own ledger, and then one slot more, once a run. An output as long as the
/// list always has room.
pub fn full(harness: &mut Harness, chance: &mut Chance) {
    let (mut list, refused) = filling(TABLE_SLOTS, chance);
    table_into(0, &bytes(&list), &noise(RECORD * list.len(), chance), harness);
    list.push(refused);
    table_into(0, &bytes(&list), &noise(RECORD * list.len(), chance), harness);
}

/// The start of a list: every other one announces a default route.
fn default_or_none(feeder: &mut Feeder, chance: &mut Chance) -> Vec<u8> {
    if chance.happens(0.5) {
        feeder.announce(Prefix::EMPTY, chance).bytes().to_vec()
    } else {
        Vec::new()
    }
}

/// Long prefixes anywhere: from none to more than the call's own ledger has room for.
fn crowded(chance: &mut Chance) -> Vec<u8> {
    let mut feeder = Feeder::scattered(chance);
    let mut list = default_or_none(&mut feeder, chance);
    for _ in 0..chance.below(TABLE_SLOTS as u64 / 12) {
        let prefix = Prefix::of(chance.bits() as u32, WIDTH - chance.below(4) as u8);
        list.extend(prefix.announced(feeder.hop(chance)).bytes());
    }
    list
}

/// The list with no output, as a caller who asks for the length, and with an output that may have room.
fn table(round: u64, list: &[u8], harness: &mut Harness, chance: &mut Chance) {
    let asked = plain::table(list, &mut []);
    let records = if matches!(asked.number, 0 | 11) { asked.count as usize } else { list.len() };
    for room in [0, room_for(records, chance)] {
        table_into(round, list, &noise(room, chance), harness);
    }
}

fn table_into(round: u64, list: &[u8], output: &[u8], harness: &mut Harness) {
    let tried = || format!("round {round}: table of {} into {} bytes", show::list(list), output.len());
    let (mut expected_output, mut output_left) = (output.to_vec(), output.to_vec());
    let expected = plain::table(list, &mut expected_output);
    let came = harness.ours.table(list, &mut output_left);
    harness.note(Call::Table, came.number);
    harness.verdict.equal(ANSWER, &expected, &came, tried);
    harness.verdict.alike(OUTPUT, &expected_output[..], &output_left[..], tried, show::first_difference);
}
