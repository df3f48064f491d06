//! Compares every call of the first implementation with the second one: document 01's examples, and seeded random inputs, long and short,
//! sound and damaged. A mismatch prints the whole input and ends its test; the last line counts the tests.
//!
//! Run: LTD_LIB_DIR=(the directory of libc_abi.a) cargo run --release --features first --bin compare [-- TEXT]
//! With TEXT only the tests run whose name has it.

mod benefits;
mod blocks;
mod cells;
mod codes;
mod corrections;
mod durations;
mod faults;
mod figures;
mod file_runs;
mod inputs;
mod join;
mod listing;
mod loads;
mod month_walk;
mod one_input;
mod open_and_add;
mod pools;
mod prepared;
mod prepared_corrections;
mod prepared_studies;
mod reserve_limit;
mod short_lists;
mod small_company;
mod studies;
mod valuation;
mod version;
mod wanted_count;
mod windows;
mod withdraw;

use second::rng::Rng;
use std::env::args;
use std::io::{stdout, Write as _};
use std::process::exit;
use std::time::Instant;

/// The number of inputs compared, or the first input on which the implementations differ.
type Outcome = Result<u64, String>;

struct Test {
    name: &'static str,
    /// Of its random inputs; 0 if it has none.
    seed: u64,
    run: fn(&mut Rng) -> Outcome,
}

const fn test(name: &'static str, seed: u64, run: fn(&mut Rng) -> Outcome) -> Test {
    Test { name, seed, run }
}

/// The tests of each subject, in the order they are run.
const SUBJECTS: &[&[Test]] = &[
    figures::TESTS,
    listing::TESTS,
    month_walk::TESTS,
    codes::TESTS,
    cells::TESTS,
    benefits::TESTS,
    file_runs::TESTS,
    prepared::TESTS,
    windows::TESTS,
    valuation::TESTS,
    wanted_count::TESTS,
    reserve_limit::TESTS,
    blocks::TESTS,
    short_lists::TESTS,
    open_and_add::TESTS,
    withdraw::TESTS,
    join::TESTS,
    pools::TESTS,
    small_company::TESTS,
    loads::TESTS,
    corrections::TESTS,
    version::TESTS,
    prepared_studies::TESTS,
    prepared_corrections::TESTS,
    durations::TESTS,
];

fn main() {
    let (mut passed, mut failed, mut inputs) = (0, 0, 0);
    let begin = Instant::now();
    let text = args().nth(1).unwrap_or_default();
    for test in SUBJECTS.iter().copied().flatten().filter(|test| test.name.contains(&text)) {
        print!("{} (seed {}): ", test.name, test.seed);
        stdout().flush().unwrap();
        match (test.run)(&mut Rng::new(test.seed)) {
            Ok(n) => {
                passed += 1;
                inputs += n;
                println!("ok, {n} inputs");
            }
            Err(input) => {
                failed += 1;
                println!("FAILED\n{input}");
            }
        }
    }
    println!("{inputs} inputs in {:.1} seconds", begin.elapsed().as_secs_f64());
    println!("{passed} passed, {failed} failed");
    exit(if failed > 0 { 1 } else { 0 });
}
