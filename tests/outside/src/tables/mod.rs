//! Random tables: what our calls make of a feed, against plain computations of the same forwarding. And small widths by
//! force.

mod force;
mod histories;
mod one;

use crate::ours::Fault;
use crate::program::{Options, Program};
use crate::verdict::{Check, Verdict};
use chance::Chance;
use one::Totals;

/// Our update takes a feed as the plain ledger does.
const UPDATE: Check = "update answer";
/// Our ledger lookup, at every boundary address, is the longest match by trying all prefixes.
const LOOKUP: Check = "ledger lookup at the boundaries";
/// So is our list lookup in the table that we wrote.
const LIST_LOOKUP: Check = "list lookup in the written table at the boundaries";
/// Our writing counts as many records as the plain smallest table has,
const COUNT: Check = "written count";
/// writes its very bytes,
const BYTES: Check = "written bytes";
/// and none behind them.
const BEHIND: Check = "bytes behind the table";
/// A table has no more records than its ledger has routes.
const HELD: Check = "no more records than routes held";
/// The same forwarding after another history gives the same bytes.
const HISTORY: Check = "same forwarding, same bytes";
/// A written table that is loaded and written again gives the same bytes.
const AGAIN: Check = "loaded and written again";
/// At a small width our table has as few entries as any table whatever,
const LEAST: Check = "least count by force";
/// forwards as its ledger does,
const ROW: Check = "forwarding by force";
/// and is the same for all tables that forward alike.
const ALIKE: Check = "same forwarding, same bytes by force";

pub const PROGRAM: Program = Program {
    name: "random_tables",
    checks: &[UPDATE, LOOKUP, LIST_LOOKUP, COUNT, BYTES, BEHIND, HELD, HISTORY, AGAIN, LEAST, ROW, ALIKE],
    faults: &[
        Fault::AppliesNone,
        Fault::RefusesAll,
        Fault::Lookup,
        Fault::HidesNothing,
        Fault::ListLookup,
        Fault::Hop,
        Fault::Drop,
        Fault::Extra,
        Fault::TopEntry,
        Fault::Order,
        Fault::BytesBehind,
        Fault::Output,
        Fault::Copy,
        Fault::OneWord,
        Fault::LastWordFirst,
    ],
    rounds: 4000,
    body,
};

fn body(options: &Options, verdict: &mut Verdict) -> String {
    let mut chance = Chance::new(options.seed);
    let mut totals = Totals::default();
    for round in 0..options.rounds {
        one::table(round, options, &mut chance, verdict, &mut totals);
    }
    let small = force::small_widths(options, &mut chance, verdict);
    format!(
        "{} tables ({} routes held, {} records written), {} boundary addresses, {small}",
        options.rounds,
        totals.held,
        totals.written,
        verdict.tried(LOOKUP)
    )
}
