//! Tests of the proved library from outside, through its doors. What the library answers and leaves is compared with a
//! plain program of document 01 (`plain`), and lent memory is read as docs/LAYOUT.md says (`layout`).
//!
//! Two programs: `random_tables` tries random tables (`tables`), `harness` tries every call with many inputs and any
//! memory (`harness`). Either can be told to damage the library's answers (`ours`), and then has to find that out.

pub mod damage;
pub mod feeds;
pub mod harness;
pub mod layout;
pub mod ours;
pub mod plain;
pub mod program;
pub mod show;
pub mod tables;
pub mod verdict;
