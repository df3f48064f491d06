//! Claims added one by one: with plain rates, with a prepared table, and by an earlier build of the engine in the same run.

use crate::bars::{Asked, Bars};
use crate::{best, grouped, Timed, CELLS, SEED, TURNS};
use second::block::claim_record;
use second::earlier::EarlierAdd;
use second::ffi;
use second::load::{claims, rates, NINE_YEARS};
use second::study::STUDY_LENGTH;
use std::hint::black_box;
use std::time::Instant;

const ADDITIONS: usize = 20_000;

struct Additions {
    records: Vec<[u8; 32]>,
    rates: Vec<u32>,
    table: Vec<u32>,
}

impl Additions {
    fn new() -> Additions {
        let rates = rates(SEED, CELLS);
        let mut table = [&rates[..], &[0]].concat();
        ffi::prepare(&mut table);
        Additions { records: claims(SEED, ADDITIONS, CELLS).iter().map(claim_record).collect(), rates, table }
    }

    /// The time of all additions, and the study after them.
    fn timed(&self, add: impl Fn(&mut [i64], &[u8]) -> u8) -> (f64, [i64; STUDY_LENGTH]) {
        let mut study = [0; STUDY_LENGTH];
        ffi::open(NINE_YEARS.0.to_number(), NINE_YEARS.1.to_number(), &mut study);
        let begin = Instant::now();
        for record in &self.records {
            add(&mut study, black_box(record));
        }
        (begin.elapsed().as_secs_f64(), study)
    }

    fn plain(&self) -> (f64, [i64; STUDY_LENGTH]) {
        self.timed(|study, record| ffi::add(study, record, black_box(&self.rates)))
    }

    fn prepared(&self) -> (f64, [i64; STUDY_LENGTH]) {
        self.timed(|study, record| ffi::prepared_add(study, record, black_box(&self.table)))
    }

    fn earlier(&self, add: &EarlierAdd) -> (f64, [i64; STUDY_LENGTH]) {
        self.timed(|study, record| add.add(study, record, black_box(&self.rates)))
    }

    /// A run's time, if its study is the one that is wanted.
    fn checked((seconds, study): (f64, [i64; STUDY_LENGTH]), wanted: &[i64; STUDY_LENGTH]) -> Timed {
        if study == *wanted {
            Ok(seconds)
        } else {
            Err(format!("adding gave {study:?} for {wanted:?}"))
        }
    }
}

/// Prints the time of an addition; with the shared library of an earlier build, the bars against its `ltd_add`.
pub fn additions(earlier: Option<&str>, bars: &mut Bars) -> Result<(), String> {
    let load = Additions::new();
    let wanted = load.plain().1;
    println!("\n| {} additions, nine years, {CELLS} cells | an addition |", grouped(ADDITIONS as f64));
    println!("|---|---|");
    let row = |call: &str, seconds: f64| println!("| {call} | {:.0} ns |", seconds * 1e9 / ADDITIONS as f64);
    let plain = || Additions::checked(load.plain(), &wanted);
    let prepared = || Additions::checked(load.prepared(), &wanted);
    let Some(path) = earlier else {
        let [plain, prepared] = best(TURNS, [&plain, &prepared])?;
        row("`ltd_add`", plain);
        row("`ltd_prepared_add`", prepared);
        bars.leave_out("`ltd_add` and `ltd_prepared_add` against an earlier build: LTD_EARLIER names no shared library");
        return Ok(());
    };
    let add = EarlierAdd::load(path)?;
    let before = || Additions::checked(load.earlier(&add), &wanted);
    let [plain, prepared, before] = best(TURNS, [&plain, &prepared, &before])?;
    row("`ltd_add`", plain);
    row("`ltd_prepared_add`", prepared);
    row("`ltd_add` of the earlier build", before);
    bars.hold("`ltd_add` of the earlier build's", plain / before, Asked::AtMost(0.4));
    bars.hold("`ltd_prepared_add` of the earlier build's `ltd_add`", prepared / before, Asked::AtMost(0.2));
    Ok(())
}
