//! Tries every call with many inputs, long and short, valid and damaged, and with any memory; `outside::harness` has
//! what it tries.

use std::process::ExitCode;

fn main() -> ExitCode {
    outside::harness::PROGRAM.main()
}
