//! A long life with flat memory. It is a program of its own, so that no other test takes memory beside it.

mod rows;

use moveledger::{Ledger, Report};
use rows::of_repository;
use std::fs;

/// How often a ledger answers; `MOVELEDGER_APPLIES` says otherwise.
const APPLIES: u64 = 20_000;
/// Fewer don't tell: where a tool runs the program, the tool's own memory grows.
const TELLING: u64 = 1_000;
/// The bytes of the first record, which publishes the module with the coin. The second one mints.
const FIRST: usize = 124;

/// The memory that the process has, in bytes.
fn resident() -> u64 {
    let status = fs::read_to_string("/proc/self/statm").expect("the system tells");
    status.split(' ').nth(1).and_then(|pages| pages.parse::<u64>().ok()).expect("a number") * 4096
}

// Runs that abort leave nothing behind but their number.
#[test]
fn memory_is_flat() {
    let applies = std::env::var("MOVELEDGER_APPLIES").ok().and_then(|it| it.parse().ok()).unwrap_or(APPLIES);
    let stream = fs::read(of_repository("examples/first-coin.stream")).expect("the stream is there");
    let mut ledger = Ledger::new().expect("there is memory");
    ledger.apply(&stream).expect("there is memory");
    let mut report = Report::new();
    let mut answer = |count| {
        for _ in 0..count {
            report.clear();
            ledger.apply_into(&stream[FIRST..], &mut report).expect("there is memory");
            assert!(report.as_str().ends_with(" aborted exists 0 4\n"));
        }
    };
    answer(applies / 10);
    let before = resident();
    answer(applies);
    let after = resident();
    assert!(applies < TELLING || after < before + 500_000, "{before} bytes before, and {after} after");
}
