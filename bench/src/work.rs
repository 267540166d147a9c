//! What is measured. A turn of a work is what one side does between two looks at the clock.

use crate::side::{Seat, Side};
use doors::records::RECORD;
use doors::{Counted, Found};
use std::hint::black_box;

/// Who takes the answers: one that compares them, or one that only keeps the compiler from leaving them out.
pub trait Taker {
    fn counted(&mut self, answer: Counted);
    fn found(&mut self, answer: Found);
    fn written(&mut self, answer: Counted, scratch: &[u64], out: &[u8]);
}

pub trait Work {
    /// So many turns differ, lest the processor learns one by heart; then they begin again.
    fn cycle(&self) -> usize;

    /// The operations of a turn.
    fn operations(&self, turn: usize) -> usize;

    /// What has to be done before a turn and is not timed.
    fn prepare<S: Side>(&self, _seat: &mut Seat<S>, _turn: usize) {}

    fn turn<S: Side>(&self, seat: &mut Seat<S>, turn: usize, taker: &mut impl Taker);
}

/// Updates with one record a call.
pub struct SingleUpdates {
    pub batches: Vec<Vec<[u8; RECORD]>>,
}

impl Work for SingleUpdates {
    fn cycle(&self) -> usize {
        self.batches.len()
    }

    fn operations(&self, turn: usize) -> usize {
        self.batches[turn].len()
    }

    fn turn<S: Side>(&self, seat: &mut Seat<S>, turn: usize, taker: &mut impl Taker) {
        for record in &self.batches[turn] {
            taker.counted(seat.side.update(black_box(record)));
        }
    }
}

/// Updates with one long list a call, to the ledger as it stands or to an empty one. An operation is one record.
pub struct Feeds {
    pub lists: Vec<Vec<u8>>,
    pub from_empty: bool,
}

impl Work for Feeds {
    fn cycle(&self) -> usize {
        self.lists.len()
    }

    fn operations(&self, turn: usize) -> usize {
        self.lists[turn].len() / RECORD
    }

    fn prepare<S: Side>(&self, seat: &mut Seat<S>, _turn: usize) {
        if self.from_empty {
            seat.side.empty();
        }
    }

    fn turn<S: Side>(&self, seat: &mut Seat<S>, turn: usize, taker: &mut impl Taker) {
        taker.counted(seat.side.update(black_box(&self.lists[turn])));
    }
}

pub struct Lookups {
    pub batches: Vec<Vec<u32>>,
}

impl Work for Lookups {
    fn cycle(&self) -> usize {
        self.batches.len()
    }

    fn operations(&self, turn: usize) -> usize {
        self.batches[turn].len()
    }

    fn turn<S: Side>(&self, seat: &mut Seat<S>, turn: usize, taker: &mut impl Taker) {
        for address in &self.batches[turn] {
            taker.found(seat.side.lookup(black_box(*address)));
        }
    }
}

/// Lookups in a record list. An operation is one record of the list.
pub struct ListLookups {
    pub list: Vec<u8>,
    pub addresses: Vec<u32>,
}

impl Work for ListLookups {
    fn cycle(&self) -> usize {
        1
    }

    fn operations(&self, _turn: usize) -> usize {
        self.addresses.len() * self.list.len() / RECORD
    }

    fn turn<S: Side>(&self, _seat: &mut Seat<S>, _turn: usize, taker: &mut impl Taker) {
        for address in &self.addresses {
            taker.found(S::lookup_list(black_box(&self.list), black_box(*address)));
        }
    }
}

/// A write of the ledger that a feed made, after a burst of updates in one list or without one. Burst and write are
/// timed, and are one operation.
pub struct Writes {
    pub writings: Vec<Writing>,
}

pub struct Writing {
    pub feed: Vec<u8>,
    pub burst: Option<Vec<u8>>,
}

impl Work for Writes {
    fn cycle(&self) -> usize {
        self.writings.len()
    }

    fn operations(&self, _turn: usize) -> usize {
        1
    }

    fn prepare<S: Side>(&self, seat: &mut Seat<S>, turn: usize) {
        seat.side.empty();
        seat.side.update(&self.writings[turn].feed);
    }

    fn turn<S: Side>(&self, seat: &mut Seat<S>, turn: usize, taker: &mut impl Taker) {
        if let Some(burst) = &self.writings[turn].burst {
            taker.counted(seat.side.update(black_box(burst)));
        }
        let answer = black_box(&mut *seat).write();
        taker.written(answer, &seat.scratch, &seat.out);
    }
}
