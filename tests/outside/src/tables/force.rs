//! Small widths by force. At width w a table gives each of the 2^(w+1) - 1 prefixes of at most w bits no entry or one
//! with a hop, discard included; all of them are gone through, and of each forwarding the least number of entries is
//! kept. This paints rows of hops and uses neither strings, nor sets, nor longest match.

use super::{one, ALIKE, LEAST, ROW};
use crate::feeds::{bytes, WORD_HOPS};
use crate::plain::{Prefix, DISCARD, HIGHEST_HOP, WIDTH};
use crate::program::Options;
use crate::show;
use crate::verdict::Verdict;
use chance::Chance;
use doors::records::RECORD;
use std::collections::BTreeMap;

/// The hops that are tried; rows and tables have their places here. Two have the same place in two words of a set.
const HOPS: [u16; 4] = [DISCARD, 1, WORD_HOPS + 1, HIGHEST_HOP];

/// The hops of all addresses of a small width, two bits for each, the first address lowest.
type Row = usize;

/// Discard for every address: what is so before any entry.
const UNPAINTED: Row = 0;

/// The hop that a table has for each prefix, shortest first.
type Table = Vec<Option<u8>>;

struct Width {
    bits: u8,
    /// An entry has one of the hops up to this place.
    highest: u8,
    /// The prefixes, shortest first, and which cells of a row each paints (1 in each of these cells).
    prefixes: Vec<(Prefix, Row)>,
    /// The least number of entries that leaves a row, found by force; none where no table does.
    least: Vec<Option<usize>>,
}

impl Width {
    fn new(bits: u8, highest: u8) -> Width {
        let cells = 1 << bits;
        let mut width = Width { bits, highest, prefixes: Vec::new(), least: vec![None; 1 << (2 * cells)] };
        for length in 0..=bits {
            let span = cells >> length;
            for start in (0..cells).step_by(span) {
                let painted = (start..start + span).map(|cell| 1 << (2 * cell)).sum();
                width.prefixes.push((Prefix::of(width.address(start), length), painted));
            }
        }
        width.go_through();
        width
    }

    /// The first address that begins with the bits of a cell.
    fn address(&self, cell: usize) -> u32 {
        (cell as u32) << (WIDTH - self.bits)
    }

    /// All tables, a prefix at a time: a longer one paints over what shorter ones left. What comes of a row does not
    /// hang on the entries that left it, so tables that have left the same row go on as one, with the fewest.
    fn go_through(&mut self) {
        self.least[UNPAINTED] = Some(0);
        for &(_, cells) in &self.prefixes {
            for (row, least) in self.least.clone().into_iter().enumerate() {
                let Some(entries) = least.map(|least| least + 1) else {
                    continue;
                };
                for hop in 0..=self.highest {
                    let least = &mut self.least[paint(row, cells, hop)];
                    *least = Some(least.map_or(entries, |least| least.min(entries)));
                }
            }
        }
    }

    fn entries<'a>(&'a self, table: &'a Table) -> impl Iterator<Item = (Prefix, Row, u8)> + 'a {
        table.iter().zip(&self.prefixes).filter_map(|(&hop, &(prefix, cells))| Some((prefix, cells, hop?)))
    }

    fn row(&self, table: &Table) -> Row {
        self.entries(table).fold(UNPAINTED, |row, (_, cells, hop)| paint(row, cells, hop))
    }

    fn list(&self, table: &Table) -> Vec<u8> {
        let announced = |(prefix, _, hop): (Prefix, Row, u8)| prefix.announced(HOPS[usize::from(hop)]);
        bytes(&self.entries(table).map(announced).collect::<Vec<_>>())
    }

    /// The table number n of all tables.
    fn table(&self, n: u64) -> Table {
        let choices = self.choices();
        let hop = |place| (n / choices.pow(place) % choices).checked_sub(1).map(|hop| hop as u8);
        (0..self.prefixes.len() as u32).map(hop).collect()
    }

    /// What there is to choose from for each prefix: first no entry, then one with each hop.
    fn choices(&self) -> u64 {
        u64::from(self.highest) + 2
    }

    fn tables(&self) -> u64 {
        self.choices().pow(self.prefixes.len() as u32)
    }

    /// How many ways there are to give each address a hop.
    fn forwardings(&self) -> usize {
        (usize::from(self.highest) + 1).pow(1 << self.bits)
    }

    /// The tables that give each address an entry of its own: with them every forwarding is reached.
    fn full_tables(&self) -> impl Iterator<Item = Table> + '_ {
        let cells = 1 << self.bits;
        let shorter = self.prefixes.len() - cells;
        let hops = usize::from(self.highest) + 1;
        (0..self.forwardings()).map(move |n| {
            let mut table = vec![None; shorter];
            table.extend((0..cells as u32).map(|cell| Some((n / hops.pow(cell) % hops) as u8)));
            table
        })
    }
}

fn paint(row: Row, cells: Row, hop: u8) -> Row {
    row & !(3 * cells) | usize::from(hop) * cells
}

/// What our writing made of the first table of each forwarding.
type Seen = BTreeMap<Row, Vec<u8>>;

/// At width 2 with four hops every table is written, with a default route and without; at width 3 with three hops every
/// forwarding is, and random tables.
pub fn small_widths(options: &Options, chance: &mut Chance, verdict: &mut Verdict) -> String {
    let two = Width::new(2, 3);
    let mut seen_two = Seen::new();
    (0..two.tables()).for_each(|n| compare(&two, &two.table(n), options, &mut seen_two, verdict));

    let three = Width::new(3, 2);
    let mut seen_three = Seen::new();
    three.full_tables().for_each(|table| compare(&three, &table, options, &mut seen_three, verdict));
    for _ in 0..10 * options.rounds {
        let n = chance.below(three.tables());
        compare(&three, &three.table(n), options, &mut seen_three, verdict);
    }
    for (width, seen) in [(&two, &seen_two), (&three, &seen_three)] {
        assert_eq!(seen.len(), width.forwardings(), "every forwarding is tried");
    }
    let forwardings = seen_two.len() + seen_three.len();
    format!("{} tables of small widths with {forwardings} forwardings by force", verdict.tried(LEAST))
}

fn compare(width: &Width, table: &Table, options: &Options, seen: &mut Seen, verdict: &mut Verdict) {
    let row = width.row(table);
    let list = width.list(table);
    let tried = || format!("width {}: {}", width.bits, show::list(&list));
    let came = one::write_from(options.ours, &list);
    let least = width.least[row].expect("this very table leaves it");
    verdict.equal(LEAST, &least, &(came.len() / RECORD), tried);

    let cells = 0..1 << width.bits;
    let painted: Vec<u32> = cells.clone().map(|cell| u32::from(HOPS[row >> (2 * cell) & 3])).collect();
    let found = cells.map(|cell| options.ours.lookup_list(&came, width.address(cell)).hop).collect();
    verdict.equal(ROW, &painted, &found, tried);

    let first = seen.entry(row).or_insert_with(|| came.clone());
    verdict.alike(ALIKE, &*first, &came, tried, |first, came| show::first_difference(first, came));
}
