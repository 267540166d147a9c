//! The calls on a plain ledger: what each answers and leaves. Refusals 1 and 2 are of lent memory, and are given by
//! `layout`.

use super::records::{change, records_of};
use super::{smallest, Ledger, TABLE_SLOTS};
use doors::records::{Fields, ANNOUNCE, WITHDRAW};
use doors::{Counted, Found};

/// Rules 3 to 9. The ledger is then the one after the records that were applied.
pub fn update(ledger: &mut Ledger, slots: usize, list: &[u8]) -> Counted {
    let records = match records_of(list) {
        Ok(records) => records,
        Err(number) => return Counted { number, count: 0 },
    };
    for (place, &record) in records.iter().enumerate() {
        if let Err(number) = apply(ledger, slots, record) {
            return Counted { number, count: place as u64 };
        }
    }
    Counted { number: 0, count: records.len() as u64 }
}

fn apply(ledger: &mut Ledger, slots: usize, record: Fields) -> Result<(), u32> {
    let change = change(record, &[ANNOUNCE, WITHDRAW])?;
    if change.hop.is_none() && ledger.held(change.prefix).is_none() {
        return Err(8);
    }
    // Only the ledger after the record decides, so the record is applied and, if that does not fit, taken back.
    let before = ledger.set(change.prefix, change.hop);
    if ledger.needs() > slots {
        ledger.set(change.prefix, before);
        return Err(9);
    }
    Ok(())
}

/// The ledger that a list's announcements make in order, or the refusal and the place of the first bad record.
pub fn announced(list: &[u8]) -> Result<Ledger, (u32, u64)> {
    let records = records_of(list).map_err(|number| (number, 0))?;
    let mut ledger = Ledger::default();
    for (place, &record) in records.iter().enumerate() {
        let change = change(record, &[ANNOUNCE]).map_err(|number| (number, place as u64))?;
        ledger.set(change.prefix, change.hop);
    }
    Ok(ledger)
}

/// Looks an address up in a list of announcements.
pub fn lookup_list(list: &[u8], address: u32) -> Found {
    match announced(list) {
        Ok(ledger) => Found { number: 0, hop: u32::from(ledger.longest_match(address)), place: 0 },
        Err((number, place)) => Found { number, hop: 0, place },
    }
}

/// Writes the smallest table to the start of an output. A refusal leaves the output as it was.
pub fn write(ledger: &Ledger, output: &mut [u8]) -> Counted {
    let table = smallest(ledger);
    let count = table.len() as u64;
    let bytes: Vec<u8> = table.iter().flat_map(|entry| entry.bytes()).collect();
    match output.get_mut(..bytes.len()) {
        Some(start) => {
            start.copy_from_slice(&bytes);
            Counted { number: 0, count }
        }
        None => Counted { number: 11, count },
    }
}

/// The daemon's table call: update, then writing, on a fresh ledger.
pub fn table(list: &[u8], output: &mut [u8]) -> Counted {
    let mut ledger = Ledger::default();
    let updated = update(&mut ledger, TABLE_SLOTS, list);
    if updated.number == 0 {
        write(&ledger, output)
    } else {
        updated
    }
}
