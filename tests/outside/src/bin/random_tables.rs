//! Document 01's second program that tries random tables; `outside::tables` has what it tries.

use std::process::ExitCode;

fn main() -> ExitCode {
    outside::tables::PROGRAM.main()
}
