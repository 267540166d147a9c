//! Records, lists and ledgers in words, for reports of failed checks.

use crate::plain::{Ledger, Prefix};
use doors::records::{Fields, ANNOUNCE, RECORD, WITHDRAW};
use std::net::Ipv4Addr;

/// How much of a list is shown: reports are read by people.
const SHOWN: usize = 16;

pub fn record(fields: Fields) -> String {
    let route = format!("{}/{}", Ipv4Addr::from(fields.address), fields.length);
    match (fields.action, fields.hop) {
        (ANNOUNCE, hop) => format!("{route} to {hop}"),
        (WITHDRAW, 0) => format!("withdraw {route}"),
        (action, hop) => format!("{route} action {action} hop {hop}"),
    }
}

fn shortened(items: impl ExactSizeIterator<Item = String>) -> String {
    let more = items.len().saturating_sub(SHOWN);
    let shown = items.take(SHOWN).collect::<Vec<_>>().join(", ");
    if more == 0 {
        shown
    } else {
        format!("{shown} and {more} more")
    }
}

pub fn list(bytes: &[u8]) -> String {
    let (records, rest) = bytes.as_chunks::<RECORD>();
    let shown = shortened(records.iter().map(|&bytes| record(Fields::of(bytes))));
    format!("{} bytes [{shown}]{}", bytes.len(), if rest.is_empty() { "" } else { " and a part of a record" })
}

/// Two byte strings that differ, each from the record on that has the first difference.
pub fn first_difference(expected: &[u8], came: &[u8]) -> (String, String) {
    let same = expected.iter().zip(came).take_while(|(a, b)| a == b).count();
    let start = same / RECORD * RECORD;
    let from = |bytes: &[u8]| format!("from byte {start} on {}", list(&bytes[start..]));
    (from(expected), from(came))
}

fn only_in(this: &Ledger, other: &Ledger) -> String {
    let routes: Vec<(Prefix, u16)> = this.routes().filter(|&(prefix, hop)| other.held(prefix) != Some(hop)).collect();
    let shown = shortened(routes.iter().map(|(prefix, hop)| format!("{prefix:?} to {hop}")));
    format!("{} routes, of these only here [{shown}]", this.count())
}

/// Two ledgers, or refusals instead, that differ.
pub fn ledgers(expected: &Result<Ledger, u32>, came: &Result<Ledger, u32>) -> (String, String) {
    match (expected, came) {
        (Ok(expected), Ok(came)) => (only_in(expected, came), only_in(came, expected)),
        _ => (ledger_or_refusal(expected), ledger_or_refusal(came)),
    }
}

fn ledger_or_refusal(held: &Result<Ledger, u32>) -> String {
    match held {
        Ok(ledger) => format!("a ledger of {} routes", ledger.count()),
        Err(number) => format!("refusal {number}"),
    }
}
