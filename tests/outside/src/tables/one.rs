//! One random table, and what is checked of it.

use super::{histories, AGAIN, BEHIND, BYTES, COUNT, HELD, HISTORY, LIST_LOOKUP, LOOKUP, UPDATE};
use crate::feeds::{bytes, noise, Feeder};
use crate::ours::Ours;
use crate::plain::{self, Ledger, Prefix, MOST_SLOTS, SCRATCH_WORDS, WIDTH};
use crate::program::Options;
use crate::show;
use crate::verdict::{Failure, Verdict};
use chance::Chance;
use doors::records::RECORD;
use doors::{Counted, Found, Memory};
use std::collections::BTreeSet;

/// What was tried in all, for the summary.
#[derive(Default)]
pub struct Totals {
    pub held: u64,
    pub written: u64,
}

/// A random feed, through our calls and through the plain ones.
pub fn table(round: u64, options: &Options, chance: &mut Chance, verdict: &mut Verdict, totals: &mut Totals) {
    let feed = any_feed(chance);
    let tried = || format!("round {round}: {}", show::list(&feed));
    let mut ledger = Ledger::default();
    let expected = plain::update(&mut ledger, MOST_SLOTS, &feed);
    let (came, mut memory) = load(options.ours, &feed);
    verdict.equal(UPDATE, &expected, &came, tried);

    let table = write_and_compare(options.ours, &memory, &ledger, chance, verdict, tried);
    compare_lookups(options.ours, &mut memory, &ledger, &table, verdict, tried);

    let count = table.len() / RECORD;
    verdict.check(HELD, count <= ledger.count(), || Failure {
        tried: tried(),
        expected: format!("at most {} records", ledger.count()),
        came: format!("{count} records"),
    });
    let other = histories::same_forwarding(&ledger, chance);
    let came = write_from(options.ours, &other);
    let tried_other = || format!("{}; instead of it {}", tried(), show::list(&other));
    verdict.alike(HISTORY, &table[..], &came[..], tried_other, show::first_difference);
    let again = write_from(options.ours, &table);
    verdict.alike(AGAIN, &table[..], &again[..], tried, show::first_difference);

    totals.held += ledger.count() as u64;
    totals.written += count as u64;
}

/// A feed after which a default route is held or, as often, none. One in ten is scattered over all addresses, the
/// others lie together.
fn any_feed(chance: &mut Chance) -> Vec<u8> {
    let mut feeder = if chance.happens(0.1) { Feeder::scattered(chance) } else { Feeder::new(chance) };
    let most = *chance.pick(&[1, 5, 20, 100, 400, 400, 1500]);
    let records = chance.below(most + 1);
    let mut feed = feeder.feed(records, chance);
    if chance.happens(0.5) {
        let default = feeder.announce(Prefix::EMPTY, chance);
        let last = feed.iter().rposition(|record| record.length == 0).map_or(0, |place| place + 1);
        feed.insert(last + chance.below((feed.len() - last) as u64 + 1) as usize, default);
    } else {
        feed.retain(|record| record.length > 0);
    }
    bytes(&feed)
}

/// Memory from zeros with this list applied, in as many slots as any list of so many records can need.
pub fn load(ours: Ours, list: &[u8]) -> (Counted, Memory) {
    let enough = 1 + list.len() / RECORD * usize::from(WIDTH);
    let mut memory = Memory::zeroed(enough.min(MOST_SLOTS));
    (ours.update(&mut memory, list), memory)
}

/// The table that we write of a memory into this output.
pub fn write(ours: Ours, memory: &Memory, output: &mut [u8]) -> (Counted, Vec<u8>) {
    let answer = ours.write(memory, &mut vec![0; SCRATCH_WORDS * memory.up.len()], output);
    let end = if answer.number == 0 { RECORD * answer.count as usize } else { 0 };
    (answer, output[..end.min(output.len())].to_vec())
}

/// The table that we write of the ledger that a list makes. It never has more records than the list.
pub fn write_from(ours: Ours, list: &[u8]) -> Vec<u8> {
    let (_, memory) = load(ours, list);
    write(ours, &memory, &mut vec![0; list.len()]).1
}

/// Writes with room to spare, and compares the answer and every byte of the output. The table that we wrote comes back.
fn write_and_compare(
    ours: Ours,
    memory: &Memory,
    ledger: &Ledger,
    chance: &mut Chance,
    verdict: &mut Verdict,
    tried: impl Fn() -> String + Copy,
) -> Vec<u8> {
    let room = RECORD * (ledger.count() + 1) + chance.below(20) as usize;
    let mut output = noise(room, chance);
    let mut expected_output = output.clone();
    let expected = plain::write(ledger, &mut expected_output);
    let (came, table) = write(ours, memory, &mut output);
    let end = RECORD * expected.count as usize;
    verdict.equal(COUNT, &expected, &came, tried);
    verdict.alike(BYTES, &expected_output[..end], &output[..end], tried, show::first_difference);
    verdict.alike(BEHIND, &expected_output[end..], &output[end..], tried, show::first_difference);
    table
}

/// Every boundary address of the ledger and of the table, in both of our lookups.
fn compare_lookups(
    ours: Ours,
    memory: &mut Memory,
    ledger: &Ledger,
    table: &[u8],
    verdict: &mut Verdict,
    tried: impl Fn() -> String,
) {
    let written = plain::announced(table).unwrap_or_default();
    let routes = ledger.routes().chain(written.routes());
    let boundaries: BTreeSet<u32> = routes.flat_map(|(prefix, _)| prefix.boundary()).collect();
    for address in boundaries {
        let expected = Found { number: 0, hop: u32::from(ledger.longest_match(address)), place: 0 };
        let at = || format!("address {address:#010x} after {}", tried());
        verdict.equal(LOOKUP, &expected, &ours.lookup(memory, address), at);
        verdict.equal(LIST_LOOKUP, &expected, &ours.lookup_list(table, address), at);
    }
}
