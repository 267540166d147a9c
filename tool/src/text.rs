//! Lines to records and back. A line can say every record there is, good or bad: what is in range is the library's
//! matter, and a number is held back here only if the record's bytes have no room for it.

use doors::records::{Fields, ANNOUNCE, RECORD, WITHDRAW};
use std::fmt::Write;
use std::net::Ipv4Addr;
use std::str::FromStr;

const A_LINE: &str = "`10.0.0.0/8 via 5`, `10.0.0.0/8 discard`, `withdraw 10.0.0.0/8`, \
                      or `action 3 10.0.0.0/8 hop 5` for other records";
const A_PREFIX: &str = "a prefix as 10.0.0.0/8, or `default` for 0.0.0.0/0";
const A_BYTE: &str = "a number from 0 to 255 for a prefix length or an action";
const A_HOP: &str = "a number from 0 to 65535 for a hop";

/// The record that a line says, none for a blank line or a comment; or what is expected instead.
pub fn record(line: &str) -> Result<Option<Fields>, &'static str> {
    let said = line.split('#').next().unwrap_or_default();
    let words: Vec<&str> = said.split_whitespace().collect();
    let (action, at, hop) = match words[..] {
        [] => return Ok(None),
        ["withdraw", at] => (WITHDRAW, at, 0),
        [at, "via", hop] => (ANNOUNCE, at, number(hop, A_HOP)?),
        [at, "discard"] => (ANNOUNCE, at, 0),
        ["action", action, at, "hop", hop] => (number(action, A_BYTE)?, at, number(hop, A_HOP)?),
        _ => return Err(A_LINE),
    };
    let (address, length) = prefix(at)?;
    Ok(Some(Fields {
        address,
        length,
        action,
        hop,
    }))
}

/// An address as people write it.
pub fn address(word: &str) -> Option<u32> {
    word.parse().ok().map(Ipv4Addr::to_bits)
}

/// The line that says a record.
pub fn line(record: Fields) -> String {
    let at = format!("{}/{}", Ipv4Addr::from(record.address), record.length);
    match (record.action, record.hop) {
        (ANNOUNCE, 0) => format!("{at} discard"),
        (ANNOUNCE, hop) => format!("{at} via {hop}"),
        (WITHDRAW, 0) => format!("withdraw {at}"),
        (action, hop) => format!("action {action} {at} hop {hop}"),
    }
}

/// The lines that say a list of whole records.
pub fn lines(records: &[u8]) -> String {
    let mut text = String::new();
    for &record in records.as_chunks::<RECORD>().0 {
        writeln!(text, "{}", line(Fields::of(record))).expect("a string takes every line");
    }
    text
}

fn prefix(word: &str) -> Result<(u32, u8), &'static str> {
    if word == "default" {
        return Ok((0, 0));
    }
    let (start, length) = word.split_once('/').ok_or(A_PREFIX)?;
    Ok((address(start).ok_or(A_PREFIX)?, number(length, A_BYTE)?))
}

/// Digits only: `parse` would take a sign as well.
fn number<N: FromStr>(word: &str, expected: &'static str) -> Result<N, &'static str> {
    let digits = word.bytes().all(|byte| byte.is_ascii_digit());
    word.parse().ok().filter(|_| digits).ok_or(expected)
}
