//! The library's side: its calls through the doors, each with the fault that was planted, if one was. A planted fault
//! damages what the library answered and left before anything is compared; so it stands for a library that does the job
//! wrongly.

use crate::feeds::{bytes, WORD_HOPS};
use crate::layout;
use crate::plain::{Prefix, DISCARD, HIGHEST_HOP};
use doors::records::{Fields, RECORD};
use doors::{Counted, Found, Memory};

#[derive(Clone, Copy, PartialEq, Eq)]
pub enum Fault {
    /// An update reports one record more than it applied.
    Count,
    /// An update reports what it should, and applies nothing.
    AppliesNone,
    /// An update refuses everything.
    RefusesAll,
    /// An update says complete on the record count of the input.
    Complete,
    /// An update that applies nothing changes an element.
    Touches,
    /// An update leaves a hop in a free slot.
    Stale,
    /// An update leaves memory that holds no ledger.
    Head,
    /// A lookup in the ledger always answers 1.
    Lookup,
    /// A lookup in the ledger changes the memory.
    Stirs,
    /// A lookup in the ledger and writing take a held discard for no route, so that it does not hide the shorter one.
    HidesNothing,
    /// A lookup in a list always answers 1.
    ListLookup,
    /// A lookup in a list gives the place behind the first bad record.
    Place,
    /// A written record has another hop.
    Hop,
    /// The last record is left out.
    Drop,
    /// A redundant record is added.
    Extra,
    /// The empty string is always given an entry, also where discard is in its set.
    TopEntry,
    /// Two records are swapped.
    Order,
    /// A byte behind the table is changed.
    BytesBehind,
    /// Writing leaves the output alone.
    Output,
    /// Writing copies the ledger out.
    Copy,
    /// Writing takes hops that have the same place in two words of a set for one.
    OneWord,
    /// Writing looks for a set's least hop in the last word first.
    LastWordFirst,
    /// 11 comes with a count that is one too low.
    Needed,
    /// A refused writing changes the output.
    RefusedOutput,
    /// Writing leaves the scratch dirty.
    Scratch,
}

impl Fault {
    pub fn name(self) -> &'static str {
        match self {
            Fault::Count => "count",
            Fault::AppliesNone => "applies-none",
            Fault::RefusesAll => "refuses-all",
            Fault::Complete => "complete",
            Fault::Touches => "touches",
            Fault::Stale => "stale",
            Fault::Head => "head",
            Fault::Lookup => "lookup",
            Fault::Stirs => "stirs",
            Fault::HidesNothing => "hides-nothing",
            Fault::ListLookup => "list-lookup",
            Fault::Place => "place",
            Fault::Hop => "hop",
            Fault::Drop => "drop",
            Fault::Extra => "extra",
            Fault::TopEntry => "top-entry",
            Fault::Order => "order",
            Fault::BytesBehind => "bytes-behind",
            Fault::Output => "output",
            Fault::Copy => "copy",
            Fault::OneWord => "one-word",
            Fault::LastWordFirst => "last-word-first",
            Fault::Needed => "needed",
            Fault::RefusedOutput => "refused-output",
            Fault::Scratch => "scratch",
        }
    }
}

#[derive(Clone, Copy, Default)]
pub struct Ours {
    pub fault: Option<Fault>,
}

impl Ours {
    pub fn update(self, memory: &mut Memory, list: &[u8]) -> Counted {
        let Some(fault) = self.fault else {
            return memory.update(list);
        };
        let before = memory.clone();
        let answer = memory.update(list);
        damage_update(fault, &before, memory, list, answer)
    }

    /// The memory is lent for reading; it is handed over as changeable only so that a planted fault can change it.
    pub fn lookup(self, memory: &mut Memory, address: u32) -> Found {
        let answer = memory.lookup(address);
        match self.fault {
            Some(Fault::Lookup) => ALWAYS_ONE,
            Some(Fault::HidesNothing) => without_discards(memory).lookup(address),
            Some(Fault::Stirs) => {
                memory.hi.last_mut().into_iter().for_each(|element| *element ^= 1);
                answer
            }
            _ => answer,
        }
    }

    pub fn write(self, memory: &Memory, scratch: &mut [u64], output: &mut [u8]) -> Counted {
        let Some(fault) = self.fault else {
            return memory.write(scratch, output);
        };
        let before = output.to_vec();
        let answer = match fault {
            Fault::HidesNothing => without_discards(memory).write(scratch, output),
            Fault::OneWord => write_by_words(|_| 0, memory, scratch, output),
            Fault::LastWordFirst => write_by_words(|word| LAST_WORD - word, memory, scratch, output),
            _ => memory.write(scratch, output),
        };
        match (fault, answer.number) {
            (Fault::Scratch, 0 | 11) => scratch.last_mut().into_iter().for_each(|word| *word = 1),
            (Fault::Copy, 0) => return copy_ledger(memory, &before, output),
            _ => {}
        }
        damage_written(fault, &before, output, answer)
    }

    pub fn lookup_list(self, list: &[u8], address: u32) -> Found {
        let answer = doors::lookup(list, address);
        match (self.fault, answer.number) {
            (Some(Fault::ListLookup), _) => ALWAYS_ONE,
            (Some(Fault::Place), 4..=7) => Found { place: answer.place + 1, ..answer },
            _ => answer,
        }
    }

    pub fn table(self, list: &[u8], output: &mut [u8]) -> Counted {
        let Some(fault) = self.fault else {
            return doors::table(list, output);
        };
        let before = output.to_vec();
        let answer = doors::table(list, output);
        damage_written(fault, &before, output, answer)
    }
}

const ALWAYS_ONE: Found = Found { number: 0, hop: 1, place: 0 };

const LAST_WORD: u16 = HIGHEST_HOP / WORD_HOPS - 1;

fn damage_update(fault: Fault, before: &Memory, memory: &mut Memory, list: &[u8], answer: Counted) -> Counted {
    match fault {
        Fault::Count => return Counted { count: answer.count + 1, ..answer },
        Fault::AppliesNone => *memory = before.clone(),
        Fault::RefusesAll => {
            *memory = before.clone();
            return Counted { number: 9, count: 0 };
        }
        Fault::Complete => return Counted { number: 0, count: (list.len() / RECORD) as u64 },
        Fault::Touches if answer.count == 0 => memory.lo.last_mut().into_iter().for_each(|element| *element ^= 1),
        Fault::Stale if answer.count > 0 => {
            let free = (1..memory.up.len()).find(|&slot| memory.up[slot] == 0);
            free.into_iter().for_each(|slot| memory.hop[slot] = 2);
        }
        Fault::Head if answer.count > 0 => memory.up[0] = memory.up.len() as u32 + 1,
        _ => {}
    }
    answer
}

/// Damage to an output and the count that goes with it. A table without records, or an output without room for one
/// more, is left as it is by faults that need them.
fn damage_written(fault: Fault, before: &[u8], output: &mut [u8], answer: Counted) -> Counted {
    let end = if answer.number == 0 { RECORD * answer.count as usize } else { 0 };
    let counted = |count| Counted { count, ..answer };
    match (fault, answer.number) {
        (Fault::Hop, 0) if end > 0 => renumber(&mut output[end - RECORD..end], |hop| hop % HIGHEST_HOP + 1),
        (Fault::Drop, 0) if end > 0 => {
            output[end - RECORD..end].copy_from_slice(&before[end - RECORD..end]);
            return counted(answer.count - 1);
        }
        (Fault::Extra, 0) if end > 0 && end + RECORD <= output.len() => {
            output.copy_within(end - RECORD..end, end);
            return counted(answer.count + 1);
        }
        (Fault::TopEntry, 0) if !has_top_entry(&output[..end]) && end + RECORD <= output.len() => {
            output.copy_within(..end, RECORD);
            output[..RECORD].copy_from_slice(&Prefix::EMPTY.announced(DISCARD).bytes());
            return counted(answer.count + 1);
        }
        (Fault::Order, 0) if answer.count > 1 => output[..2 * RECORD].rotate_left(RECORD),
        (Fault::BytesBehind, 0) if end < output.len() => output[end] ^= 1,
        (Fault::Output, 0) => output.copy_from_slice(before),
        (Fault::Needed, 11) => return counted(answer.count - 1),
        (Fault::RefusedOutput, 1..) => output.first_mut().into_iter().for_each(|byte| *byte ^= 1),
        _ => {}
    }
    answer
}

/// The first record of a table is that of the empty string, if it has one.
fn has_top_entry(table: &[u8]) -> bool {
    table.first_chunk().is_some_and(|&first| Fields::of(first).length == 0)
}

/// The memory with nothing stored where a discard is held.
fn without_discards(memory: &Memory) -> Memory {
    let mut memory = memory.clone();
    memory.hop.iter_mut().filter(|stored| **stored == u32::from(DISCARD) + 1).for_each(|stored| *stored = 0);
    memory
}

/// Writing with hops in other words than theirs: they are moved before it, and those that it wrote are moved once more
/// behind it, which takes them back where two words changed places.
fn write_by_words(word: impl Fn(u16) -> u16, memory: &Memory, scratch: &mut [u64], output: &mut [u8]) -> Counted {
    let moved = |hop: u16| match hop.checked_sub(1) {
        Some(place) => word(place / WORD_HOPS) * WORD_HOPS + place % WORD_HOPS + 1,
        None => DISCARD,
    };
    let mut memory = memory.clone();
    for stored in &mut memory.hop {
        *stored = layout::stored_hop(*stored).map_or(0, |hop| u32::from(moved(hop)) + 1);
    }
    let answer = memory.write(scratch, output);
    if answer.number == 0 {
        renumber(&mut output[..RECORD * answer.count as usize], moved);
    }
    answer
}

/// Gives the records of a list other hops.
fn renumber(list: &mut [u8], other: impl Fn(u16) -> u16) {
    for record in list.as_chunks_mut::<RECORD>().0 {
        let fields = Fields::of(*record);
        *record = Fields { hop: other(fields.hop), ..fields }.bytes();
    }
}

/// A writer that copies the ledger out, in the order of a table; it writes what the output has room for.
fn copy_ledger(memory: &Memory, before: &[u8], output: &mut [u8]) -> Counted {
    let held = layout::read(memory).expect("it was written from");
    let mut routes: Vec<Fields> = held.routes().map(|(prefix, hop)| prefix.announced(hop)).collect();
    routes.sort_by_key(|route| (route.address, route.length));
    routes.truncate(output.len() / RECORD);
    let copied = bytes(&routes);
    output.copy_from_slice(before);
    output[..copied.len()].copy_from_slice(&copied);
    Counted { number: 0, count: routes.len() as u64 }
}
