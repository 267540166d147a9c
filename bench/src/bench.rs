//! A table in lent memory, with others of its kind and size, and the works that are measured on them.

use crate::generator::{slots_needed, Kind, Table};
use crate::inputs::{feed_of, Inputs};
use crate::report::{thousands, Section};
use crate::timing::{Measured, Seats, Times};
use crate::work::Work;
use chance::Chance;
use std::ops::Range;

/// Tables, inputs and the order of turns are drawn from this.
pub const SEED: u64 = 1;

/// Everything is measured so many times over, so that no number hangs on what else the machine did in one second;
pub const PASSES: usize = 5;
/// and in each pass a work has so many rounds,
const ROUNDS: usize = 41;
/// where so many slots are lent. A round takes the longer the more are lent, so then there are fewer.
pub const USUAL_SLOTS: usize = 65_536;

/// Tables of one kind and size.
#[derive(Clone, Copy)]
pub struct Series {
    pub kind: Kind,
    pub size: usize,
    /// How many there are: writes and whole feeds cycle through them.
    pub tables: usize,
    /// The slots lent to each.
    pub slots: usize,
}

impl Series {
    pub fn name(&self) -> String {
        format!("{} {}", self.kind.name(), thousands(self.size))
    }

    pub fn draw(&self) -> Vec<Table> {
        let mut chance = Chance::new(SEED);
        (0..self.tables).map(|_| Table::draw(self.kind, self.size, &mut chance)).collect()
    }

    /// The rounds of a pass.
    pub fn rounds(&self) -> usize {
        (ROUNDS * USUAL_SLOTS).div_ceil(self.slots)
    }
}

pub struct Bench {
    name: String,
    /// The first is held where a work does not say otherwise.
    tables: Vec<Table>,
    feed: Vec<u8>,
    slots: [usize; 2],
    seats: Seats,
    /// Of each pass.
    rounds: usize,
    chance: Chance,
    word: String,
    rows: Vec<Row>,
}

struct Row {
    name: &'static str,
    /// Times some rounds of the row's work.
    time: Box<dyn Fn(&mut Seats, Range<usize>, &mut Chance, &mut Times)>,
    times: Times,
}

impl Bench {
    /// The first seats of both sides get so many slots, the second ones so many. Works are left out that have the word
    /// neither in their name nor in the tables'.
    pub fn new(name: String, tables: Vec<Table>, slots: [usize; 2], rounds: usize, word: &str) -> Bench {
        let fits = |table: &Table| slots.iter().all(|slots| slots_needed(&table.routes) <= *slots);
        assert!(tables.iter().all(fits), "the slots have room for each table");
        let feed = feed_of(&tables[0].routes);
        let seats = Seats::new(slots, feed.len());
        let (chance, word) = (Chance::new(SEED), word.to_string());
        Bench { name, tables, feed, slots, seats, rounds, chance, word, rows: Vec::new() }
    }

    /// A work is taken up, once both sides have been seen to agree on it.
    pub fn row<W: Work + 'static>(&mut self, name: &'static str, work: impl Fn(&mut Inputs) -> W) {
        if name.contains(&self.word) || self.name.contains(&self.word) {
            let (table, tables) = (&self.tables[0], &self.tables[..]);
            let work = work(&mut Inputs { table, tables, chance: &mut Chance::new(SEED) });
            self.seats.load(&self.feed);
            self.seats.agree(&work);
            let time = Box::new(move |seats: &mut Seats, rounds, chance: &mut Chance, times: &mut Times| {
                seats.time(&work, rounds, chance, times)
            });
            self.rows.push(Row { name, time, times: Times::default() });
        }
    }

    pub fn time(&mut self, rounds: Range<usize>) {
        for row in &mut self.rows {
            self.seats.load(&self.feed);
            (row.time)(&mut self.seats, rounds.clone(), &mut self.chance, &mut row.times);
        }
    }

    pub fn time_pass(&mut self, pass: usize) {
        self.time(pass * self.rounds..(pass + 1) * self.rounds);
    }

    pub fn has_rows(&self) -> bool {
        !self.rows.is_empty()
    }

    /// The works, each behind the table's name and with its times so far.
    pub fn rows(&self) -> impl Iterator<Item = (&str, &str, &Times)> {
        self.rows.iter().map(|row| (self.name.as_str(), row.name, &row.times))
    }

    pub fn section(mut self) -> Section {
        self.seats.load(&self.feed);
        let written = self.seats.count_written();
        let routes = self.tables[0].routes.len();
        let about = format!(
            "{} routes need {} slots; the smallest table has {} ({:.0}%).",
            thousands(routes),
            thousands(slots_needed(&self.tables[0].routes)),
            thousands(written),
            100.0 * written as f64 / routes as f64,
        );
        let rows = self.rows.into_iter().map(|row| (row.name, Measured::of(row.times))).collect();
        Section { name: self.name, about, slots: self.slots, rounds: PASSES * self.rounds, rows }
    }
}
