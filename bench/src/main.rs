//! Measures the proved library against plain Rust of the same job, on the same inputs in one run, and prints Markdown.
//!
//! `bench/run` measures everything; `bench/run WORD` only the works that have the word in their name, and the tables
//! that have it in theirs. `bench/against` has two builds take turns, by `--turns WORD`.

mod agreement;
mod bench;
mod bursts;
mod generator;
mod inputs;
mod plain;
mod report;
mod side;
mod timing;
mod work;

use bench::{Bench, Series, PASSES, SEED, USUAL_SLOTS};
use chance::Chance;
use generator::{slots_needed, Kind};
use report::{print_section, print_slots, print_summary, print_times, thousands, Section};

const FEW_SLOTS: usize = 4_096;
const MOST_SLOTS: usize = 1_048_576;

const SMALL_REAL: Series = usual(Kind::Real, 1_000);
const SMALL_UNIFORM: Series = usual(Kind::Uniform, 1_000);

/// What is measured on. A write clears the scratch of every slot that is lent, so the usual slots are lent wherever they
/// have room. There are few of the largest, as all takes long with them.
const SERIES: [Series; 7] = [
    SMALL_REAL,
    usual(Kind::Real, 5_000),
    usual(Kind::Real, 20_000),
    SMALL_UNIFORM,
    usual(Kind::Uniform, 5_000),
    Series { slots: 262_144, ..usual(Kind::Uniform, 20_000) },
    Series { slots: MOST_SLOTS, tables: 2, ..usual(Kind::Real, 400_000) },
];

const fn usual(kind: Kind, size: usize) -> Series {
    Series { kind, size, tables: 16, slots: USUAL_SLOTS }
}

fn main() {
    let mut words = std::env::args().skip(1).peekable();
    let turns = words.next_if(|word| word == "--turns").is_some();
    let word = words.next().unwrap_or_default();
    agreement::check(&SMALL_UNIFORM.draw()[0].routes, &mut Chance::new(SEED));
    // Two builds take hundreds of turns, and one with more than the usual slots takes half a second or longer. So those
    // tables take none, unless the word names them.
    let taken = |series: &&Series| !turns || series.slots == USUAL_SLOTS || series.name().contains(&word);
    let mut tables: Vec<Bench> = SERIES.iter().filter(taken).map(|series| everything(series, &word)).collect();
    if turns {
        return take_turns(&mut tables);
    }
    tables.retain(Bench::has_rows);
    let mut slots = few_and_many_slots(&word);
    let real = SERIES.iter().filter(|series| series.kind == Kind::Real);
    let mut full: Vec<Bench> = real.map(|series| full_memory(series, &word)).collect();
    for pass in 0..PASSES {
        eprintln!("pass {} of {PASSES}", pass + 1);
        for bench in tables.iter_mut().chain([&mut slots]).chain(&mut full) {
            bench.time_pass(pass);
        }
    }

    println!("Machine: {}.\n", machine());
    let sections: Vec<Section> = tables.into_iter().map(Bench::section).collect();
    print_summary(&sections);
    sections.iter().for_each(print_section);
    println!("### The same routes in few slots and in many\n");
    print_slots(&slots.section());
    println!("### An announcement that is refused for want of room\n");
    print_times(&full.into_iter().map(Bench::section).collect::<Vec<_>>());
}

/// Tells the works; then, for each line that is read, times one round of each and tells how long the seats took.
fn take_turns(tables: &mut [Bench]) {
    for (table, work, _) in tables.iter().flat_map(Bench::rows) {
        println!("{table}\t{work}");
    }
    println!();
    for (round, _) in std::io::stdin().lines().enumerate() {
        for bench in &mut *tables {
            bench.time(round..round + 1);
            for (_, _, times) in bench.rows() {
                println!("{}", times.last().map(|time| time.to_string()).join("\t"));
            }
        }
    }
}

fn everything(series: &Series, word: &str) -> Bench {
    let mut bench = Bench::new(series.name(), series.draw(), [series.slots; 2], series.rounds(), word);
    bench.row("hop change, one record a call", |inputs| inputs.hop_changes());
    bench.row("withdraw or announce, one record a call", |inputs| inputs.withdrawals_and_announcements());
    bench.row("hop change, in one list", |inputs| inputs.hop_changes_in_one_list());
    bench.row("announce, the table in one list", |inputs| inputs.whole_tables());
    bench.row("ledger lookup, any address", |inputs| inputs.any_addresses());
    bench.row("ledger lookup, inside a route", |inputs| inputs.addresses_inside());
    bench.row("list lookup, a record of the list", |inputs| inputs.list_lookups());
    bench.row("write", |inputs| inputs.writes());
    bench.row("burst of 1, then a write", |inputs| inputs.bursts(1));
    bench.row("burst of 10, then a write", |inputs| inputs.bursts(10));
    bench.row("burst of 100, then a write", |inputs| inputs.bursts(100));
    bench
}

/// The first seats have few slots, the second ones many.
fn few_and_many_slots(word: &str) -> Bench {
    let (tables, rounds) = (SMALL_REAL.draw(), SMALL_REAL.rounds());
    let mut bench = Bench::new(String::new(), tables, [FEW_SLOTS, MOST_SLOTS], rounds, word);
    bench.row("hop change, one record a call", |inputs| inputs.hop_changes());
    bench.row("withdraw or announce, one record a call", |inputs| inputs.withdrawals_and_announcements());
    bench.row("ledger lookup, inside a route", |inputs| inputs.addresses_inside());
    bench.row("write", |inputs| inputs.writes());
    bench
}

fn full_memory(series: &Series, word: &str) -> Bench {
    let tables = Series { tables: 1, ..*series }.draw();
    let slots = slots_needed(&tables[0].routes);
    let mut bench = Bench::new(thousands(slots), tables, [slots; 2], series.rounds(), word);
    bench.row("announce, refused", |inputs| inputs.one_slot_more());
    bench
}

/// The processor's name and the cores, as the system tells them.
fn machine() -> String {
    let told = std::fs::read_to_string("/proc/cpuinfo").unwrap_or_default();
    let model = told.lines().find_map(|line| line.strip_prefix("model name")).unwrap_or("unknown processor");
    let cores = std::thread::available_parallelism().map_or(1, |cores| cores.get());
    format!("{}, {cores} cores", model.trim_start_matches([' ', '\t', ':']))
}
