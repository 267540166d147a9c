//! The two sides that are compared, behind one set of calls.

use crate::plain::{self, Ledger};
use doors::{Counted, Found, Memory, SCRATCH_WORDS};

pub trait Side {
    fn with_slots(slots: usize) -> Self;
    /// Back to the empty ledger, in the same memory.
    fn empty(&mut self);
    fn update(&mut self, list: &[u8]) -> Counted;
    fn lookup(&self, address: u32) -> Found;
    fn write(&self, scratch: &mut [u64], out: &mut [u8]) -> Counted;
    fn lookup_list(list: &[u8], address: u32) -> Found;
}

impl Side for Memory {
    fn with_slots(slots: usize) -> Memory {
        Memory::zeroed(slots)
    }

    fn empty(&mut self) {
        for slice in [&mut self.lo, &mut self.hi, &mut self.up, &mut self.hop] {
            slice.fill(0);
        }
    }

    fn update(&mut self, list: &[u8]) -> Counted {
        Memory::update(self, list)
    }

    fn lookup(&self, address: u32) -> Found {
        Memory::lookup(self, address)
    }

    fn write(&self, scratch: &mut [u64], out: &mut [u8]) -> Counted {
        Memory::write(self, scratch, out)
    }

    fn lookup_list(list: &[u8], address: u32) -> Found {
        doors::lookup(list, address)
    }
}

impl Side for Ledger {
    fn with_slots(slots: usize) -> Ledger {
        Ledger::new(slots)
    }

    fn empty(&mut self) {
        self.clear();
    }

    fn update(&mut self, list: &[u8]) -> Counted {
        Ledger::update(self, list)
    }

    fn lookup(&self, address: u32) -> Found {
        Ledger::lookup(self, address)
    }

    fn write(&self, scratch: &mut [u64], out: &mut [u8]) -> Counted {
        Ledger::write(self, scratch, out)
    }

    fn lookup_list(list: &[u8], address: u32) -> Found {
        plain::lookup_list(list, address)
    }
}

/// A side with its own scratch and output.
pub struct Seat<S> {
    pub side: S,
    pub scratch: Vec<u64>,
    pub out: Vec<u8>,
}

impl<S: Side> Seat<S> {
    pub fn new(slots: usize, out: usize) -> Seat<S> {
        Seat { side: S::with_slots(slots), scratch: vec![0; SCRATCH_WORDS * slots], out: vec![0; out] }
    }

    pub fn write(&mut self) -> Counted {
        self.side.write(&mut self.scratch, &mut self.out)
    }
}
