//! Measures the engine beside the second implementation: bench DIR PROGRAM SECOND_PROGRAM [CLAIMS]. What is compared takes turns over one
//! claim file, and the best of five turns counts. The load stays in DIR as claims.bin and rates.bin.
//!
//! Prints eight tables: the speed of the calls in memory, of the programs, and of `cat` as the floor; the shape of the cost; what the walk
//! over a claim's months costs early and late in the calendar; the calls that have a cost of their own; the sums of each duration; what an
//! addition costs; what corrections cost; and the bars, each with the figure that is held to it. The status is 1 where one falls short.
//! LTD_EARLIER names the shared library of an earlier build, whose `ltd_add` is measured in the same run.

mod additions;
mod bars;
mod durations;

use bars::{Asked, Bars};
use second::block::{claim_record, BLOCK_LENGTH, CLAIM_LENGTH, RECORDS_LENGTH};
use second::calendar::Date;
use second::claim::{Claim, CLOSED, SETTLEMENT};
use second::ffi;
use second::generate::claim_file;
use second::load::{claims, rates, NINE_YEARS};
use second::months::listing;
use second::rates::{RateTable, MOST_CELLS};
use second::report::{encode_rates, report};
use second::run::{run_corrected_file, run_file, MOST_RECORDS, RUN_LENGTH};
use second::shared_load;
use second::study::{Study, STUDY_LENGTH};
use second::valuation::{factor, reserve_limit, Limited, MOST_OPEN_CLAIMS};
use std::env;
use std::fs::{self, File};
use std::hint::black_box;
use std::path::Path;
use std::process::{exit, Command, Stdio};
use std::time::Instant;

const TURNS: usize = 5;
/// Of runs that take milliseconds.
const SHORT_TURNS: usize = 40;
const SEED: u64 = 1;
const CELLS: usize = 16;
const ONE_YEAR: (Date, Date) = (Date::new(2013, 1, 1), Date::new(2013, 12, 31));
const CALENDAR: (Date, Date) = (Date::new(1950, 1, 1), Date::new(2099, 12, 31));

/// The seconds of a run, or what is wrong with it.
type Timed = Result<f64, String>;

fn main() {
    let arguments: Vec<String> = env::args().skip(1).collect();
    let count = match arguments.get(3) {
        None => Some(500_000),
        Some(text) => text.parse().ok().filter(|count| (8..=500_000).contains(count)),
    };
    let (Some(count), 3..=4) = (count, arguments.len()) else {
        eprintln!("usage: bench DIR PROGRAM SECOND_PROGRAM [CLAIMS, 8 to 500,000]");
        exit(2);
    };
    match measured(&arguments, count) {
        Ok(true) => {}
        Ok(false) => exit(1),
        Err(wrong) => {
            eprintln!("bench: {wrong}");
            exit(2);
        }
    }
}

/// Prints all tables; whether every bar is met.
fn measured(arguments: &[String], count: usize) -> Result<bool, String> {
    let earlier = env::var("LTD_EARLIER").ok();
    let mut bars = Bars::default();
    speed(Path::new(&arguments[0]), &arguments[1], &arguments[2], count, &mut bars)?;
    shape(count, &mut bars)?;
    walk(&mut bars)?;
    calls(count)?;
    durations::durations(count, &mut bars)?;
    additions::additions(earlier.as_deref(), &mut bars)?;
    corrections(&mut bars)?;
    Ok(bars.print())
}

/// A claim file and its rates, with the numbers that every run over it must give.
struct Load {
    file: Vec<u8>,
    rates: Vec<u32>,
    numbers: [i64; RUN_LENGTH],
}

impl Load {
    fn new(count: usize, cells: usize, window: (Date, Date)) -> Load {
        Load::of(claim_file(window, &claims(SEED, count, cells), None), rates(SEED, cells))
    }

    fn of(file: Vec<u8>, rates: Vec<u32>) -> Load {
        let numbers = run_file(&file, &rates).numbers();
        Load { file, rates, numbers }
    }

    fn months(&self) -> f64 {
        self.numbers[6..].chunks(8).take(5).map(|group| group[0]).sum::<i64>() as f64 / 30.0
    }

    /// The engine's run, preparing included.
    fn engine(&self) -> Timed {
        let mut table = [&self.rates[..], &[0]].concat();
        let mut out = [0; RUN_LENGTH];
        let begin = Instant::now();
        ffi::prepare(black_box(&mut table));
        ffi::prepared_file_study(black_box(&self.file), &table, &mut out);
        let seconds = begin.elapsed().as_secs_f64();
        self.checked("the engine", out, seconds)
    }

    fn second(&self) -> Timed {
        let begin = Instant::now();
        let run = black_box(run_file(black_box(&self.file), black_box(&self.rates)));
        let seconds = begin.elapsed().as_secs_f64();
        self.checked("the second implementation", run.numbers(), seconds)
    }

    fn checked(&self, what: &str, numbers: [i64; RUN_LENGTH], seconds: f64) -> Timed {
        if numbers == self.numbers && numbers[0] == 0 {
            Ok(seconds)
        } else {
            Err(format!("{what} gave {numbers:?} for {:?}", self.numbers))
        }
    }
}

/// The wall time of a process that reads DIR/claims.bin and must print `wanted` into `output`.
fn process(program: &str, dir: &Path, output: Stdio, wanted: &str) -> Timed {
    let wrong = |error| format!("{program}: {error}");
    let input = File::open(dir.join("claims.bin")).map_err(wrong)?;
    let mut command = Command::new(program);
    command.current_dir(dir).stdin(input).stdout(output);
    let begin = Instant::now();
    let printed = command.output().map_err(wrong)?.stdout;
    let seconds = begin.elapsed().as_secs_f64();
    if printed == wanted.as_bytes() {
        Ok(seconds)
    } else {
        Err(format!("{program} printed\n{}for\n{wanted}", String::from_utf8_lossy(&printed)))
    }
}

/// The best time of each run; they take turns.
fn best<const N: usize>(turns: usize, runs: [&dyn Fn() -> Timed; N]) -> Result<[f64; N], String> {
    let mut best = [f64::INFINITY; N];
    for _ in 0..turns {
        for (best, run) in best.iter_mut().zip(runs) {
            *best = best.min(run()?);
        }
    }
    Ok(best)
}

fn speed(dir: &Path, program: &str, second_program: &str, count: usize, bars: &mut Bars) -> Result<(), String> {
    let load = Load::new(count, CELLS, NINE_YEARS);
    for (name, bytes) in [("claims.bin", &load.file), ("rates.bin", &encode_rates(&load.rates))] {
        fs::write(dir.join(name), bytes).map_err(|error| format!("{name}: {error}"))?;
    }
    let table = report(&load.numbers, |group, c, e| factor(group, c, e).expect("a study's group and closing counts"));
    let runs: [&dyn Fn() -> Timed; 5] = [
        &|| load.engine(),
        &|| load.second(),
        &|| process(program, dir, Stdio::piped(), &table),
        &|| process(second_program, dir, Stdio::piped(), &table),
        &|| process("cat", dir, Stdio::null(), ""),
    ];
    let [engine, second, first_process, second_process, cat] = best(TURNS, runs)?;

    println!("{} claims, {CELLS} cells, nine years, best of {TURNS} turns:\n", grouped(count as f64));
    println!("| run | time | claims a second | months a second | ratio |");
    println!("|---|---|---|---|---|");
    let row = |run: &str, seconds: f64, other: f64, against: &str| {
        let (claims, months) = (grouped(count as f64 / seconds), grouped(load.months() / seconds));
        println!("| {run} | {:.1} ms | {claims} | {months} | {:.3} of {against} |", seconds * 1e3, seconds / other);
    };
    row("the engine, in memory, preparing included", engine, second, "the second implementation's time");
    row("the second implementation, in memory", second, engine, "the engine's");
    row("the program", first_process, second_process, "the second program's time");
    row("the second implementation's program", second_process, first_process, "the program's");
    row("`cat` of the file", cat, first_process, "the program's");
    bars.hold("second / engine, in memory", second / engine, Asked::AtLeast(4.0));
    bars.hold("second program / program", second_process / first_process, Asked::AtLeast(3.0));
    Ok(())
}

/// How the time in memory grows with the window, the number of claims and the number of cells.
fn shape(count: usize, bars: &mut Bars) -> Result<(), String> {
    println!("\n| claims | cells | window | months | engine | a claim | a month | second | a claim | a month | engine / second |");
    println!("|---|---|---|---|---|---|---|---|---|---|---|");
    let shapes = [
        (count, CELLS, "one year", ONE_YEAR),
        (count, CELLS, "nine years", NINE_YEARS),
        (count, CELLS, "150 years", CALENDAR),
        (count / 8, CELLS, "nine years", NINE_YEARS),
        (count / 4, CELLS, "nine years", NINE_YEARS),
        (count / 2, CELLS, "nine years", NINE_YEARS),
        (count, 1, "nine years", NINE_YEARS),
        (count, MOST_CELLS, "nine years", NINE_YEARS),
    ];
    let mut times = Vec::new();
    for (count, cells, years, window) in shapes {
        times.push(shape_row(count, cells, years, &Load::new(count, cells, window))?);
    }
    shape_row(count, 1, "nine years, the drawn load", &Load::of(DrawnLoad::new(count).file, rates(SEED, 1)))?;
    bars.hold("150 years / one year", times[2] / times[0], Asked::AtMost(1.4));
    Ok(())
}

/// Prints a row; the engine's time.
fn shape_row(count: usize, cells: usize, years: &str, load: &Load) -> Timed {
    let [engine, second] = best(TURNS, [&|| load.engine(), &|| load.second()])?;
    let cost = |seconds: f64| {
        let (claim, month) = (seconds * 1e9 / count as f64, seconds * 1e9 / load.months());
        format!("{:.1} ms | {claim:.1} ns | {month:.2} ns", seconds * 1e3)
    };
    let [claims, cells, months] = [count as f64, cells as f64, load.months()].map(grouped);
    let (engine_cost, second_cost) = (cost(engine), cost(second));
    println!("| {claims} | {cells} | {years} | {months} | {engine_cost} | {second_cost} | {:.3} |", engine / second);
    Ok(engine)
}

const WALKS: usize = 10_000;

/// A claim settled in its second year, EP 30, and what the calls must give for it.
struct Walked {
    record: [u8; 32],
    rates: Vec<u32>,
    list: Vec<i32>,
    study: [i64; STUDY_LENGTH],
}

impl Walked {
    fn new(year: u16) -> Walked {
        let (disability, bcd, termination) = (Date::new(year, 1, 11), Date::new(year, 2, 10), Date::new(year + 1, 12, 20));
        let claim = Claim { number: 1, disability, bcd, termination, status: CLOSED, code: SETTLEMENT, ..Claim::default() };
        let mut list = vec![0; 23 * 6];
        listing(CALENDAR.0, CALENDAR.1, &claim, &mut list).expect("23 months");
        let rates = rates(SEED, 1);
        let table = RateTable::new(&rates);
        let mut study = Study::open(CALENDAR.0, CALENDAR.1).expect("a window");
        for _ in 0..WALKS {
            study.add(&claim, &table).expect("a sound claim");
        }
        Walked { record: claim_record(&claim), list, study: study.numbers(), rates }
    }

    fn listings(&self) -> Timed {
        let (first, last) = (CALENDAR.0.to_number(), CALENDAR.1.to_number());
        let mut list = vec![0; self.list.len()];
        let begin = Instant::now();
        let listed: u64 = (0..WALKS).map(|_| ffi::listing(first, last, black_box(&self.record), black_box(&mut list))).sum();
        let seconds = begin.elapsed().as_secs_f64();
        let wanted = (WALKS * self.list.len() / 6) as u64;
        if (listed, &list) == (wanted, &self.list) {
            Ok(seconds)
        } else {
            Err(format!("listing gave {listed} months and {list:?} for {wanted} and {:?}", self.list))
        }
    }

    fn additions(&self) -> Timed {
        let mut study = [0; STUDY_LENGTH];
        ffi::open(CALENDAR.0.to_number(), CALENDAR.1.to_number(), &mut study);
        let begin = Instant::now();
        for _ in 0..WALKS {
            ffi::add(&mut study, black_box(&self.record), black_box(&self.rates));
        }
        let seconds = begin.elapsed().as_secs_f64();
        if study == self.study {
            Ok(seconds)
        } else {
            Err(format!("adding gave {study:?} for {:?}", self.study))
        }
    }
}

/// The months of a claim closed in its second year, at the start of the calendar and at its end.
fn walk(bars: &mut Bars) -> Result<(), String> {
    let (early, late) = (Walked::new(1950), Walked::new(2098));
    println!("\nEP 30, in the window 1950-01-01 to 2099-12-31, best of {SHORT_TURNS} turns:\n");
    println!(
        "| calls | BCD 1950-02-10, settled 1951-12-20 | BCD 2098-02-10, settled 2099-12-20 | ratio (at most 2 asked, 1.2 our own bar) |"
    );
    println!("|---|---|---|---|");
    let mut row = |calls: &str, run: fn(&Walked) -> Timed| {
        let [early, late] = best(SHORT_TURNS, [&|| run(&early), &|| run(&late)])?;
        println!("| {} {calls} | {:.3} ms | {:.3} ms | {:.3} |", grouped(WALKS as f64), early * 1e3, late * 1e3, early / late);
        bars.hold(&format!("No. 2, {calls} early / late"), early / late, Asked::AtMost(2.0));
        Ok(())
    };
    row("listings", Walked::listings).and_then(|()| row("additions", Walked::additions))
}

/// Calls that have a cost of their own, beside the second implementation's.
fn calls(count: usize) -> Result<(), String> {
    println!("\n| call | engine | second | engine / second |");
    println!("|---|---|---|---|");
    let row = |call: &str, turns: usize, engine: &dyn Fn() -> Timed, second: &dyn Fn() -> Timed| {
        let [engine, second] = best(turns, [engine, second])?;
        println!("| {call} | {:.3} ms | {:.3} ms | {:.3} |", engine * 1e3, second * 1e3, engine / second);
        Ok::<(), String>(())
    };
    let limit = ReserveLimit::new();
    row("the limit on reserves of 2,000 claims of 480 months", TURNS, &|| limit.engine(), &|| limit.second())?;
    let load = DrawnLoad::new(count);
    let name = format!("a load of {} claims, drawn and written into blocks", grouped(count as f64));
    row(&name, TURNS, &|| load.engine(), &|| load.second())
}

/// The load that anyone can rebuild, as a claim file.
struct DrawnLoad {
    size: u32,
    file: Vec<u8>,
}

impl DrawnLoad {
    const SEED: u32 = 1;

    fn new(count: usize) -> DrawnLoad {
        let size = count as u32;
        let claims = shared_load::load(Self::SEED, size).expect("a seed and a size");
        DrawnLoad { size, file: claim_file(NINE_YEARS, &claims, None) }
    }

    fn engine(&self) -> Timed {
        let mut file = vec![0; self.file.len()];
        let begin = Instant::now();
        let (window, blocks) = file.split_at_mut(BLOCK_LENGTH);
        ffi::write_window(NINE_YEARS.0.to_number(), NINE_YEARS.1.to_number(), window);
        let (mut x, mut claim_numbers) = ([black_box(Self::SEED)], 1..=self.size);
        for (number, block) in (1..).zip(blocks.chunks_exact_mut(BLOCK_LENGTH)) {
            let (mut records, mut length) = ([0; RECORDS_LENGTH], 0);
            for (record, claim_number) in records.chunks_exact_mut(CLAIM_LENGTH).zip(&mut claim_numbers) {
                ffi::load_claim(x[0], self.size, claim_number, &mut x, record);
                length += CLAIM_LENGTH;
            }
            ffi::write_block(number, &records[..length], block);
        }
        let seconds = begin.elapsed().as_secs_f64();
        self.checked("the engine", &file, seconds)
    }

    fn second(&self) -> Timed {
        let begin = Instant::now();
        let load = DrawnLoad::new(black_box(self.size as usize));
        let seconds = begin.elapsed().as_secs_f64();
        self.checked("the second implementation", &load.file, seconds)
    }

    fn checked(&self, what: &str, file: &[u8], seconds: f64) -> Timed {
        if file == self.file {
            Ok(seconds)
        } else {
            Err(format!("{what} draws another load"))
        }
    }
}

/// Open claims of all cells and durations, and what the limit on their reserves gives.
struct ReserveLimit {
    rates: Vec<u32>,
    claims: Vec<u32>,
    limited: Limited,
}

impl ReserveLimit {
    const T: [u64; 5] = [1_000_000, 900_000, 1_100_000, 1_500_000, 1_400_000];
    const V: f64 = 0.997;

    fn new() -> ReserveLimit {
        let rates = rates(SEED, CELLS);
        let claims: Vec<u32> = (0..MOST_OPEN_CLAIMS as u32).flat_map(|i| [i % CELLS as u32, 25 + i % 456, 480]).collect();
        let limited = reserve_limit(&RateTable::new(&rates), &claims, &Self::T, 0, Self::V).expect("sound claims");
        ReserveLimit { rates, claims, limited }
    }

    fn engine(&self) -> Timed {
        let (mut t, mut totals) = ([0; 5], [0.0; 2]);
        let begin = Instant::now();
        ffi::reserve_limit(black_box(&self.rates), black_box(&self.claims), &Self::T, 0, Self::V, &mut t, &mut totals);
        let seconds = begin.elapsed().as_secs_f64();
        self.checked(Limited { t, given: totals[0], replaced: totals[1] }, seconds)
    }

    fn second(&self) -> Timed {
        let begin = Instant::now();
        let limited = reserve_limit(&RateTable::new(black_box(&self.rates)), black_box(&self.claims), &Self::T, 0, Self::V);
        let seconds = begin.elapsed().as_secs_f64();
        self.checked(limited.expect("sound claims"), seconds)
    }

    fn checked(&self, limited: Limited, seconds: f64) -> Timed {
        if limited == self.limited {
            Ok(seconds)
        } else {
            Err(format!("the limit on reserves gave {limited:?} for {:?}", self.limited))
        }
    }
}

/// A file with as many records as one with corrections may have, run with them and without.
struct Corrected {
    file: Vec<u8>,
    rates: Vec<u32>,
}

impl Corrected {
    fn new(number: impl Fn(u32) -> u32) -> Corrected {
        let claims: Vec<Claim> =
            claims(SEED, MOST_RECORDS, CELLS).iter().map(|claim| Claim { number: number(claim.number), ..*claim }).collect();
        Corrected { file: claim_file(NINE_YEARS, &claims, None), rates: rates(SEED, CELLS) }
    }

    fn engine(&self, run: fn(&[u8], &[u32], &mut [i64]) -> u8, rates: &[u32], wanted: &[i64; RUN_LENGTH]) -> Timed {
        let mut out = [0; RUN_LENGTH];
        let begin = Instant::now();
        run(black_box(&self.file), black_box(rates), &mut out);
        let seconds = begin.elapsed().as_secs_f64();
        if out == *wanted && out[0] == 0 {
            Ok(seconds)
        } else {
            Err(format!("a file with corrections gave {out:?} for {wanted:?}"))
        }
    }

    fn second(&self) -> Timed {
        let begin = Instant::now();
        black_box(run_corrected_file(black_box(&self.file), black_box(&self.rates)));
        Ok(begin.elapsed().as_secs_f64())
    }
}

fn corrections(bars: &mut Bars) -> Result<(), String> {
    println!(
        "\n| {} records | corrected, prepared | corrected | plain run | corrected / plain (at most 5) | second, corrected |",
        grouped(MOST_RECORDS as f64)
    );
    println!("|---|---|---|---|---|---|");
    let mut row = |what: &str, load: Corrected, most: f64| {
        let wanted = run_corrected_file(&load.file, &load.rates).numbers();
        let wanted_plain = run_file(&load.file, &load.rates).numbers();
        let mut table = [&load.rates[..], &[0]].concat();
        ffi::prepare(&mut table);
        let runs: [&dyn Fn() -> Timed; 4] = [
            &|| load.engine(ffi::prepared_corrected_study, &table, &wanted),
            &|| load.engine(ffi::corrected_study, &load.rates, &wanted),
            &|| load.engine(ffi::file_study, &load.rates, &wanted_plain),
            &|| load.second(),
        ];
        let [prepared, corrected, plain, second] = best(TURNS, runs)?;
        let ratio = corrected / plain;
        let [prepared_ms, corrected_ms, plain_ms, second_ms] = [prepared, corrected, plain, second].map(|seconds| seconds * 1e3);
        println!("| {what} | {prepared_ms:.2} ms | {corrected_ms:.2} ms | {plain_ms:.2} ms | {ratio:.3} | {second_ms:.2} ms |");
        bars.hold(&format!("No. 1, corrected / plain: {what}"), ratio, Asked::AtMost(5.0));
        bars.hold(&format!("corrected with a prepared table / second: {what}"), prepared / second, Asked::AtMost(most));
        Ok::<(), String>(())
    };
    row("all numbers different, rising", Corrected::new(|number| number), 1.0)?;
    row("all numbers different, falling", Corrected::new(|number| MOST_RECORDS as u32 - number), 1.0)?;
    // An odd factor keeps them different.
    row("all numbers different, in no order", Corrected::new(|number| number.wrapping_mul(0x9e37_79b1)), 1.5)?;
    row("one number", Corrected::new(|_| 1), 1.0)
}

/// A whole number with its thousands apart.
fn grouped(number: f64) -> String {
    let digits = format!("{number:.0}");
    let mut text = String::new();
    for (i, digit) in digits.chars().enumerate() {
        if i > 0 && (digits.len() - i) % 3 == 0 {
            text.push(',');
        }
        text.push(digit);
    }
    text
}
