//! The two doors of the proved library, for Rust: include/arvandish.h and include/arvandish_ledger.h, whose text is the manual.
//!
//! Nothing is decided here. A slice is lent as its pointer and its length, and the answer is handed back as it came.

pub mod records;

/// The words of scratch that writing asks for each slot.
pub const SCRATCH_WORDS: usize = 5;

/// What a lookup found: number 0 and the hop (0 for discard), or the refusal and the place of the first bad record.
#[repr(C)]
#[derive(Clone, Copy, Debug, PartialEq, Eq)]
pub struct Found {
    pub number: u32,
    pub hop: u32,
    pub place: u64,
}

/// What became of an update or a writing: number 0 or the refusal, and the count that goes with it.
#[repr(C)]
#[derive(Clone, Copy, Debug, PartialEq, Eq)]
pub struct Counted {
    pub number: u32,
    pub count: u64,
}

mod c {
    use super::{Counted, Found};

    unsafe extern "C" {
        pub fn arvandish_lookup(list: *const u8, list_len: usize, address: u32) -> Found;

        pub fn arvandish_table(list: *const u8, list_len: usize, out: *mut u8, out_len: usize) -> Counted;

        pub fn arvandish_ledger_update(
            lo: *mut u32,
            lo_len: usize,
            hi: *mut u32,
            hi_len: usize,
            up: *mut u32,
            up_len: usize,
            hop: *mut u32,
            hop_len: usize,
            list: *const u8,
            list_len: usize,
        ) -> Counted;

        pub fn arvandish_ledger_lookup(
            lo: *const u32,
            lo_len: usize,
            hi: *const u32,
            hi_len: usize,
            up: *const u32,
            up_len: usize,
            hop: *const u32,
            hop_len: usize,
            address: u32,
        ) -> Found;

        pub fn arvandish_ledger_write(
            lo: *const u32,
            lo_len: usize,
            hi: *const u32,
            hi_len: usize,
            up: *const u32,
            up_len: usize,
            hop: *const u32,
            hop_len: usize,
            scratch: *mut u64,
            scratch_len: usize,
            out: *mut u8,
            out_len: usize,
        ) -> Counted;
    }
}

// Why each call below is sound: a slice's pointer and length are lent as they are, no two `&mut` overlap, and the library stays
// inside what it is lent and keeps nothing.

/// The hop of an address in a list of announcements (`arvandish_lookup`).
pub fn lookup(list: &[u8], address: u32) -> Found {
    unsafe { c::arvandish_lookup(list.as_ptr(), list.len(), address) }
}

/// An update list to the smallest table, on a fresh ledger of the library's own (`arvandish_table`).
pub fn table(list: &[u8], out: &mut [u8]) -> Counted {
    unsafe { c::arvandish_table(list.as_ptr(), list.len(), out.as_mut_ptr(), out.len()) }
}

/// The memory of a ledger, to lend: four slices with one element a slot. Tests lend others than `zeroed` makes, so the fields are open.
#[derive(Clone, Debug, PartialEq, Eq)]
pub struct Memory {
    pub lo: Vec<u32>,
    pub hi: Vec<u32>,
    pub up: Vec<u32>,
    pub hop: Vec<u32>,
}

impl Memory {
    /// The empty ledger.
    pub fn zeroed(slots: usize) -> Memory {
        Memory { lo: vec![0; slots], hi: vec![0; slots], up: vec![0; slots], hop: vec![0; slots] }
    }

    /// `arvandish_ledger_update`
    pub fn update(&mut self, list: &[u8]) -> Counted {
        let Memory { lo, hi, up, hop } = self;
        unsafe {
            c::arvandish_ledger_update(
                lo.as_mut_ptr(),
                lo.len(),
                hi.as_mut_ptr(),
                hi.len(),
                up.as_mut_ptr(),
                up.len(),
                hop.as_mut_ptr(),
                hop.len(),
                list.as_ptr(),
                list.len(),
            )
        }
    }

    /// `arvandish_ledger_lookup`
    pub fn lookup(&self, address: u32) -> Found {
        let Memory { lo, hi, up, hop } = self;
        unsafe {
            c::arvandish_ledger_lookup(
                lo.as_ptr(),
                lo.len(),
                hi.as_ptr(),
                hi.len(),
                up.as_ptr(),
                up.len(),
                hop.as_ptr(),
                hop.len(),
                address,
            )
        }
    }

    /// `arvandish_ledger_write`
    pub fn write(&self, scratch: &mut [u64], out: &mut [u8]) -> Counted {
        let Memory { lo, hi, up, hop } = self;
        unsafe {
            c::arvandish_ledger_write(
                lo.as_ptr(),
                lo.len(),
                hi.as_ptr(),
                hi.len(),
                up.as_ptr(),
                up.len(),
                hop.as_ptr(),
                hop.len(),
                scratch.as_mut_ptr(),
                scratch.len(),
                out.as_mut_ptr(),
                out.len(),
            )
        }
    }
}
