//! Document 01's own cases, by the letters that it gives them and as items 2 and 3 of document 02 have them, and the
//! other examples in the documents. Each goes through the plain program too, so that is held to the documents as well.

use super::{Harness, Trial, CASES};
use crate::feeds::bytes;
use crate::plain::{Prefix, SCRATCH_WORDS};
use doors::records::{Fields, RECORD};
use doors::Counted;
use std::net::Ipv4Addr;

/// What is fed in how many slots, what the update answers (number and count), and the table that is then written.
struct Case(&'static str, usize, &'static str, (u32, u64), &'static str);

const C: &str = "* 1, 00* 2, 10* 2, 11* 3";

const TABLE_OF_C: [u8; 24] = [0, 0, 0, 0, 0, 1, 0, 2, 0x40, 0, 0, 0, 2, 1, 0, 1, 0xC0, 0, 0, 0, 2, 1, 0, 3];

const ENOUGH: usize = 100;

const TABLE: &[Case] = &[
    Case("A", ENOUGH, "", (0, 0), ""),
    Case("B", ENOUGH, "* 1", (0, 1), "* 1"),
    Case("C", 6, C, (0, 4), "* 2, 01* 1, 11* 3"),
    Case("D", ENOUGH, "* 1, 1* 2", (0, 2), "* 1, 1* 2"),
    Case("E", ENOUGH, "* 2, 1* 1", (0, 2), "* 1, 0* 2"),
    Case("F", ENOUGH, "* 1, 0* 2, 1* 2", (0, 3), "* 2"),
    Case("G", ENOUGH, "* 1, 0* 2, 1* 2, withdraw 0*", (0, 4), "* 1, 1* 2"),
    Case("H", ENOUGH, "* 5, 10.0.0.0/8 5", (0, 2), "* 5"),
    Case("I", ENOUGH, "* 1, 01* 2, 10* 3", (0, 3), "* 1, 01* 2, 10* 3"),
    Case("J", 33, "* 1, 255.255.255.255/32 2", (0, 2), "* 1, 255.255.255.255/32 2"),
    Case("J in 32 slots", 32, "* 1, 255.255.255.255/32 2", (9, 1), "* 1"),
    Case("K", ENOUGH, "withdraw *", (8, 0), ""),
    Case("L, taken", ENOUGH, "* 256", (0, 1), "* 256"),
    Case("L, refused", ENOUGH, "* 257", (7, 0), ""),
    Case("L, discard", ENOUGH, "* 0", (0, 1), ""),
    Case("M, taken", ENOUGH, "0.0.0.0/32 1", (0, 1), "0.0.0.0/32 1"),
    Case("M, refused", ENOUGH, "0.0.0.0/33 1", (4, 0), ""),
    Case("C in 5 slots", 5, C, (9, 3), "* 1, 00* 2, 10* 2"),
    Case("10.0.0.0/8 alone needs 9", 9, "10.0.0.0/8 1", (0, 1), "10.0.0.0/8 1"),
    Case("10.0.0.0/8 alone does not fit 8", 8, "10.0.0.0/8 1", (9, 0), ""),
    Case("a lone /32 needs 33", 33, "10.0.0.1/32 1", (0, 1), "10.0.0.1/32 1"),
    Case("a lone /32 does not fit 32", 32, "10.0.0.1/32 1", (9, 0), ""),
    Case("no default", ENOUGH, "0* 1", (0, 1), "0* 1"),
    Case("no default, and no address without a route", ENOUGH, "0* 1, 1* 2", (0, 2), "* 1, 1* 2"),
    Case("document 001's table without a default", ENOUGH, "00* 1, 010* 1, 1* 1", (0, 3), "* 1, 011* 0"),
    Case("discard below a route", ENOUGH, "* 1, 0* 0", (0, 2), "1* 1"),
    Case("discard above a route", ENOUGH, "* 0, 1* 1", (0, 2), "1* 1"),
    Case("discard is the least of a set", ENOUGH, "000* 2, 01* 1, 1* 1", (0, 3), "* 1, 00* 0, 000* 2"),
    Case("discard replaces a hop", ENOUGH, "* 1, 0* 2, 0* 0", (0, 3), "1* 1"),
    Case("discard is withdrawn", ENOUGH, "* 1, 0* 0, withdraw 0*", (0, 3), "* 1"),
    Case("discard needs its slots", 8, "10.0.0.0/8 0", (9, 0), ""),
    Case("C with hops of three words", 6, "* 64, 00* 129, 10* 129, 11* 256", (0, 4), "* 129, 01* 64, 11* 256"),
    Case("E across two words", ENOUGH, "* 193, 1* 192", (0, 2), "* 192, 0* 193"),
    Case("hops with the same place in two words", ENOUGH, "* 1, 0* 65, 1* 129", (0, 3), "* 65, 1* 129"),
    Case(
        "a set with a hop of each word",
        ENOUGH,
        "* 65, 000* 256, 001* 192, 010* 128, 011* 64",
        (0, 5),
        "* 64, 00* 192, 000* 256, 010* 128, 1* 65",
    ),
];

pub fn all(harness: &mut Harness) {
    TABLE.iter().for_each(|case| run(case, harness));
    list_lengths(harness);
    output_lengths(harness);
    longest_match(harness);
}

fn run(&Case(name, slots, feed, (number, count), written): &Case, harness: &mut Harness) {
    let mut trial = Trial::from_zeros(harness, format!("case {name}"), slots);
    let table = list(written);
    let written = Counted { number: 0, count: (table.len() / RECORD) as u64 };
    let updated = trial.update(&list(feed));
    let came = trial.write(&vec![0; SCRATCH_WORDS * slots], &vec![0; table.len()]);
    says(harness, name, &(Counted { number, count }, (written, table)), &(updated, came));
}

fn says<T: PartialEq + std::fmt::Debug>(harness: &mut Harness, name: &str, expected: &T, came: &T) {
    harness.verdict.equal(CASES, expected, came, || format!("case {name}"));
}

/// N: 7 bytes, and 0 bytes.
fn list_lengths(harness: &mut Harness) {
    let mut trial = Trial::from_zeros(harness, "case N".to_string(), ENOUGH);
    let came = [trial.update(&[0; 7]), trial.update(&[])];
    says(harness, "N", &[Counted { number: 3, count: 0 }, Counted { number: 0, count: 0 }], &came);
}

/// O: for C, an output of 23 bytes and one of 24. C's table stands whole in the document.
fn output_lengths(harness: &mut Harness) {
    let slots = 6;
    let mut trial = Trial::from_zeros(harness, "case O".to_string(), slots);
    trial.update(&list(C));
    let came = [23, 24].map(|room| trial.write(&vec![0; SCRATCH_WORDS * slots], &vec![0; room]));
    let refused = (Counted { number: 11, count: 3 }, vec![0; 23]);
    says(harness, "O", &[refused, (Counted { number: 0, count: 3 }, TABLE_OF_C.to_vec())], &came);
}

/// A's lookups, and the example of source document 001: with 01* to hop 1 and 0100* to hop 2, 01000 goes to 2. A held
/// discard hides the shorter route.
fn longest_match(harness: &mut Harness) {
    let bits = |string: &str| record(string).address;
    let mut trial = Trial::from_zeros(harness, "longest match".to_string(), ENOUGH);
    let mut found = trial.lookups(&[0, bits("01000*"), u32::MAX]);
    trial.update(&list("01* 1, 0100* 2"));
    found.extend(trial.lookups(&[bits("01000*"), bits("0101*"), bits("1*")]));
    trial.update(&list("0100* 0"));
    found.extend(trial.lookups(&[bits("01000*"), bits("0101*")]));
    says(harness, "longest match", &vec![0, 0, 0, 2, 1, 0, 0, 1], &found.iter().map(|found| found.hop).collect());
}

fn list(text: &str) -> Vec<u8> {
    bytes(&text.split(", ").filter(|entry| !entry.is_empty()).map(record).collect::<Vec<_>>())
}

/// `00* 2` or `10.0.0.0/8 5`; `withdraw` before it, and then no hop.
fn record(text: &str) -> Fields {
    let (withdrawn, text) = text.strip_prefix("withdraw ").map_or((false, text), |text| (true, text));
    let (string, hop) = text.split_once(' ').unwrap_or((text, "0"));
    let (address, length) = match string.strip_suffix('*') {
        Some(bits) => from_bits(bits),
        None => from_dots(string),
    };
    if withdrawn {
        Fields::withdrawal(address, length)
    } else {
        Fields::announcement(address, length, hop.parse().expect("a hop"))
    }
}

fn from_bits(bits: &str) -> (u32, u8) {
    let add = |string: Prefix, bit| string.child(bit == '1').expect("few bits");
    let string = bits.chars().fold(Prefix::EMPTY, add);
    (string.address, string.length)
}

fn from_dots(prefix: &str) -> (u32, u8) {
    let (address, length) = prefix.split_once('/').expect("a length");
    (address.parse::<Ipv4Addr>().expect("an address").to_bits(), length.parse().expect("a length"))
}
