//! The sums of each duration over the claim file of the first table, beside its study and the second implementation's rows.

use crate::bars::{Asked, Bars};
use crate::{best, grouped, Load, Timed, CELLS, TURNS};
use second::durations::{run_durations, ROWS_AT};
use second::ffi;
use second::load::NINE_YEARS;
use second::rates::LAST_RATED;
use second::run::RUN_LENGTH;
use second::study::GROUP_LENGTH;
use std::hint::black_box;
use std::time::Instant;

/// One for each duration up to the last with rates of its own.
const ROWS: usize = LAST_RATED as usize;

/// A load with its prepared table, and the numbers that every run into rows must give.
struct Durations {
    load: Load,
    table: Vec<u32>,
    numbers: Vec<i64>,
}

impl Durations {
    fn new(count: usize) -> Durations {
        let load = Load::new(count, CELLS, NINE_YEARS);
        let mut table = [&load.rates[..], &[0]].concat();
        ffi::prepare(&mut table);
        let numbers = run_durations(&load.file, &load.rates, ROWS).numbers();
        Durations { load, table, numbers }
    }

    fn study(&self) -> Timed {
        let mut out = [0; RUN_LENGTH];
        let begin = Instant::now();
        ffi::prepared_file_study(black_box(&self.load.file), black_box(&self.table), &mut out);
        let seconds = begin.elapsed().as_secs_f64();
        self.load.checked("the engine", out, seconds)
    }

    fn engine(&self) -> Timed {
        let mut out = vec![0; ROWS_AT + GROUP_LENGTH * ROWS];
        let begin = Instant::now();
        ffi::prepared_durations(black_box(&self.load.file), black_box(&self.table), &mut out);
        let seconds = begin.elapsed().as_secs_f64();
        self.checked("the engine", &out, seconds)
    }

    fn second(&self) -> Timed {
        let begin = Instant::now();
        let run = black_box(run_durations(black_box(&self.load.file), black_box(&self.load.rates), ROWS));
        let seconds = begin.elapsed().as_secs_f64();
        self.checked("the second implementation", &run.numbers(), seconds)
    }

    fn checked(&self, what: &str, numbers: &[i64], seconds: f64) -> Timed {
        if numbers == self.numbers && numbers[0] == 0 {
            Ok(seconds)
        } else {
            Err(format!("{what} was refused, or gives other sums of each duration"))
        }
    }
}

/// Prints the time of a file's rows, beside its study with the same table.
pub fn durations(count: usize, bars: &mut Bars) -> Result<(), String> {
    let load = Durations::new(count);
    let [study, engine, second] = best(TURNS, [&|| load.study(), &|| load.engine(), &|| load.second()])?;
    println!("\n| {} claims, {CELLS} cells, nine years, {ROWS} rows | time | a claim |", grouped(count as f64));
    println!("|---|---|---|");
    let row = |run: &str, seconds: f64| println!("| {run} | {:.1} ms | {:.1} ns |", seconds * 1e3, seconds * 1e9 / count as f64);
    row("`ltd_prepared_file_study`", study);
    row("`ltd_prepared_durations`", engine);
    row("the second implementation's rows", second);
    bars.hold("`ltd_prepared_durations` / `ltd_prepared_file_study`", engine / study, Asked::AtMost(3.0));
    bars.hold("second / `ltd_prepared_durations`", second / engine, Asked::AtLeast(1.0));
    Ok(())
}
