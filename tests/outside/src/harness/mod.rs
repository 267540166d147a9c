//! Every call with many inputs, long and short, valid and damaged, and with any memory, compared with the plain
//! program.

mod any;
mod cases;
mod large;
mod lists;
mod rubbish;
mod shapes;
mod table;
mod trial;

use crate::ours::{Fault, Ours};
use crate::plain::MOST_SLOTS;
use crate::program::{Options, Program};
use crate::verdict::{Check, Failure, Verdict};
use chance::Chance;
use std::collections::{BTreeMap, BTreeSet};
use trial::Trial;

/// An update's number and count.
const UPDATE: Check = "update answer";
/// The ledger that an update leaves, as the layout reads it; that the next call is let through is part of it.
const LEDGER: Check = "ledger after an update";
/// An update that applied nothing, and refused nothing for want of room, leaves every element as it was.
const UNTOUCHED: Check = "memory as it was";
/// Memory from zeros is tidy after each update.
const TIDY: Check = "tidy memory";
const LOOKUP: Check = "ledger lookup";
const LIST_LOOKUP: Check = "list lookup";
/// Writing's number and count.
const WRITE: Check = "writing's answer";
/// Every byte of the output after writing, those behind the table included.
const OUTPUT: Check = "output";
/// Every word of the scratch after writing.
const SCRATCH: Check = "scratch";
/// Lookups and writing leave working memory as it was.
const KEPT: Check = "working memory";
/// What the documents say of their own cases and examples.
const CASES: Check = "the documents' cases";
/// Every number that the documents know for a call came from that call.
const REACHED: Check = "every number came";

pub const PROGRAM: Program = Program {
    name: "harness",
    checks: &[
        UPDATE,
        LEDGER,
        UNTOUCHED,
        TIDY,
        LOOKUP,
        LIST_LOOKUP,
        WRITE,
        OUTPUT,
        SCRATCH,
        KEPT,
        CASES,
        REACHED,
        table::ANSWER,
        table::OUTPUT,
    ],
    faults: &[
        Fault::Count,
        Fault::AppliesNone,
        Fault::RefusesAll,
        Fault::Complete,
        Fault::Touches,
        Fault::Stale,
        Fault::Head,
        Fault::Lookup,
        Fault::Stirs,
        Fault::HidesNothing,
        Fault::ListLookup,
        Fault::Place,
        Fault::Hop,
        Fault::Drop,
        Fault::Extra,
        Fault::TopEntry,
        Fault::Order,
        Fault::BytesBehind,
        Fault::Output,
        Fault::Copy,
        Fault::OneWord,
        Fault::LastWordFirst,
        Fault::Needed,
        Fault::RefusedOutput,
        Fault::Scratch,
    ],
    rounds: 1200,
    body,
};

/// The calls, and the numbers that each can answer with.
#[derive(Clone, Copy, Debug, PartialEq, Eq, PartialOrd, Ord)]
enum Call {
    Update,
    Lookup,
    Write,
    ListLookup,
    Table,
}

const NUMBERS: &[(Call, &[u32])] = &[
    (Call::Update, &[0, 1, 2, 3, 4, 5, 6, 7, 8, 9]),
    (Call::Lookup, &[0, 1, 2]),
    (Call::Write, &[0, 1, 2, 11]),
    (Call::ListLookup, &[0, 3, 4, 5, 6, 7]),
    (Call::Table, &[0, 3, 4, 5, 6, 7, 8, 9, 11]),
];

/// What all trials share: the library's side, the verdict, and how often each number came from each call.
struct Harness<'v> {
    ours: Ours,
    verdict: &'v mut Verdict,
    came: BTreeMap<(Call, u32), u64>,
}

impl Harness<'_> {
    fn note(&mut self, call: Call, number: u32) {
        *self.came.entry((call, number)).or_default() += 1;
    }

    fn times(&self, wanted: impl Fn(Call, u32) -> bool) -> u64 {
        self.came.iter().filter(|(&(call, number), _)| wanted(call, number)).map(|(_, times)| times).sum()
    }

    fn check_reached(&mut self) {
        for &(call, numbers) in NUMBERS {
            for &number in numbers {
                let times = self.times(|c, n| (c, n) == (call, number));
                self.verdict.check(REACHED, times > 0, || Failure {
                    tried: format!("all calls of {call:?}"),
                    expected: format!("number {number} at least once"),
                    came: "never".to_string(),
                });
            }
        }
    }

    fn summary(&self) -> String {
        let calls: Vec<String> =
            NUMBERS.iter().map(|&(call, _)| format!("{call:?} {}", self.times(|c, _| c == call))).collect();
        let numbers: BTreeSet<u32> = NUMBERS.iter().flat_map(|(_, numbers)| numbers.iter().copied()).collect();
        let refusals: Vec<String> =
            numbers.range(1..).map(|&number| format!("{number}: {}", self.times(|_, n| n == number))).collect();
        format!("calls {}; refusals {}", calls.join(", "), refusals.join(", "))
    }
}

fn body(options: &Options, verdict: &mut Verdict) -> String {
    let mut harness = Harness { ours: options.ours, verdict, came: BTreeMap::new() };
    let mut chance = Chance::new(options.seed);
    cases::all(&mut harness);
    shapes::odd_lengths(&mut harness, &mut chance);
    large::full_memory(&mut harness, &mut chance);
    large::long_list(&mut harness, &mut chance);
    lists::long_list(&mut harness, &mut chance);
    table::full(&mut harness, &mut chance);
    for round in 0..options.rounds {
        any::history(round, &mut harness, &mut chance);
        any::one_by_one(round, &mut harness, &mut chance);
        rubbish::memories(round, &mut harness, &mut chance);
        shapes::any_lengths(round, &mut harness, &mut chance);
        lists::lookups(round, &mut harness, &mut chance);
        table::tables(round, &mut harness, &mut chance);
    }
    // These take their time, and a planted fault is found without them.
    if options.ours.fault.is_none() {
        shapes::most_slots(&mut harness, &mut chance);
        large::most_slots(&mut harness, &mut chance);
    }
    harness.check_reached();
    harness.summary()
}
