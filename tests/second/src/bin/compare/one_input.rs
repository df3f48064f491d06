//! Comparing both implementations on one input. Lists lent for writing hold a pattern before the call and may be longer than asked for, so
//! that a number written past its place shows.

use second::block::{claim_record, read_block, read_claim, read_records, write_records, write_window, Block, CLAIM_LENGTH, RECORDS_LENGTH};
use second::calendar::Date;
use second::claim::Claim;
use second::ffi;
use second::months::listing;
use second::rates::{prepare, RateTable};
use second::run::{run_corrected_file, run_file, run_prepared_file, FileRun, RUN_LENGTH};
use second::shared_load::load_claim;
use second::small_company::{small_company, SmallCompany};
use second::study::{Study, STUDY_LENGTH};
use second::valuation::{factor, reserve_factor, reserve_limit, valuation_rate, wanted_count, Factor, Limited};
use second::Refusal;
use std::fmt::{Debug, Write as _};

/// What an answer of 64 bits has more than the number refused.
pub const REFUSED: u64 = 1 << 32;
/// Numbers of document 01's table and of document 02's requests.
pub const WINDOW: u8 = 1;
pub const DATE: u8 = 2;
pub const STATUS: u8 = 3;
pub const SEQUENCE: u8 = 4;
pub const SHORT_ELIMINATION: u8 = 5;
pub const RATE_TABLE: u8 = 6;
pub const CELL: u8 = 7;
pub const RATE: u8 = 8;
pub const FULL: u8 = 9;
pub const SHORT_LIST: u8 = 10;
pub const BLOCK: u8 = 11;
pub const VALUATION: u8 = 12;
pub const DISCOUNT: u8 = 13;
pub const RECORDS: u8 = 14;
pub const OTHER_WINDOW: u8 = 15;
pub const BENEFIT: u8 = 16;
pub const OPEN_CLAIMS: u8 = 17;
pub const NOT_TAKEN: u8 = 18;
pub const NO_SUCH_COUNT: u8 = 19;
pub const LOAD: u8 = 20;
/// A lent list has not the length or form asked for.
pub const WRONG_FORM: u8 = 255;

/// The answer of a call that says 0 or the number refused.
pub fn answer<T>(result: &Result<T, Refusal>) -> u8 {
    result.as_ref().err().map_or(0, |refusal| refusal.number())
}

/// The answer of a call that says a figure, or 2^32 + the number refused.
fn wide_answer(result: Result<u64, Refusal>) -> u64 {
    result.unwrap_or_else(|refusal| u64::refused(refusal.number()))
}

/// Equal, or the input and both results as the message.
pub fn same<T: PartialEq + Debug>(first: T, second: T, input: impl FnOnce() -> String) -> Result<(), String> {
    if first == second {
        Ok(())
    } else {
        Err(format!("{}\n  first:  {first:?}\n  second: {second:?}", input()))
    }
}

/// Each of these answers was had often.
pub fn had_often(answers: &[u64; 256], wanted: &[u8]) -> Result<(), String> {
    let total: u64 = answers.iter().sum();
    for &answer in wanted {
        let times = answers[answer as usize];
        same(times >= total / 100, true, || format!("answer {answer} only {times} times of {total}"))?;
    }
    Ok(())
}

/// What a lent list holds, compared bit for bit.
pub trait Item: Copy + Debug {
    fn of_bits(bits: u64) -> Self;
    fn bits(self) -> u64;
}

macro_rules! integer_items {
    ($($integer:ty)*) => {$(
        impl Item for $integer {
            fn of_bits(bits: u64) -> $integer {
                bits as $integer
            }
            fn bits(self) -> u64 {
                self as u64
            }
        }
    )*};
}
integer_items!(u8 u32 u64 i32 i64);

impl Item for f64 {
    fn of_bits(bits: u64) -> f64 {
        f64::from_bits(bits)
    }
    fn bits(self) -> u64 {
        self.to_bits()
    }
}

/// What a list of `length` items holds before a call.
pub fn pattern<T: Item>(length: usize) -> Vec<T> {
    (0..length as u64).map(|i| T::of_bits(0xa5c3_96e1_7b2d_4f08 ^ i.wrapping_mul(0x0101_0101_0101_0101))).collect()
}

/// Lists of one length that hold the same, or the input and both from the first difference on.
fn same_list<T: Item>(first: &[T], second: &[T], input: impl FnOnce() -> String) -> Result<(), String> {
    let differ = |(one, two): (&T, &T)| one.bits() != two.bits();
    match first.iter().zip(second).position(differ) {
        None => Ok(()),
        Some(at) => {
            let shown = at..first.len().min(at + 50);
            let (first, second) = (&first[shown.clone()], &second[shown]);
            Err(format!("{}, lists differing from place {at} on\n  first:  {first:?}\n  second: {second:?}", input()))
        }
    }
}

/// What a call answers.
pub trait Answer: Copy + PartialEq + Debug {
    fn refused(number: u8) -> Self;
    /// The number refused, or 0.
    fn refusal(self) -> u8;
}

impl Answer for u8 {
    fn refused(number: u8) -> u8 {
        number
    }
    fn refusal(self) -> u8 {
        self
    }
}

impl Answer for u64 {
    fn refused(number: u8) -> u64 {
        REFUSED + number as u64
    }
    fn refusal(self) -> u8 {
        self.saturating_sub(REFUSED) as u8
    }
}

/// The refusals that leave a lent list as it was: all of them, but of an opening and a file run 255 alone.
pub type Leaves = fn(u8) -> bool;
const EACH: Leaves = |refusal| refusal != 0;
pub const ONLY_WRONG_FORM: Leaves = |refusal| refusal == WRONG_FORM;

/// Lends each call a list of its own that holds `before`; answers and lists must be the same, and left as they were where `leaves` says
/// so, also where both would err alike. Hands back the first one's.
pub fn compare_lent<A: Answer, T: Item>(
    before: &[T],
    first: impl FnOnce(&mut [T]) -> A,
    second: impl FnOnce(&mut [T]) -> A,
    leaves: Leaves,
    input: impl Fn() -> String,
) -> Result<(A, Vec<T>), String> {
    let none: &[u8] = &[];
    let (answer, list, _) = compare_two_lent((before, none), |list, _| first(list), |list, _| second(list), leaves, input)?;
    Ok((answer, list))
}

/// As `compare_lent`, with two lists lent.
fn compare_two_lent<A: Answer, T: Item, U: Item>(
    before: (&[T], &[U]),
    first: impl FnOnce(&mut [T], &mut [U]) -> A,
    second: impl FnOnce(&mut [T], &mut [U]) -> A,
    leaves: Leaves,
    input: impl Fn() -> String,
) -> Result<(A, Vec<T>, Vec<U>), String> {
    let lists = || (before.0.to_vec(), before.1.to_vec());
    let (mut one, mut two) = (lists(), lists());
    let (answer, answer_2) = (first(&mut one.0, &mut one.1), second(&mut two.0, &mut two.1));
    same(answer, answer_2, &input)?;
    let answered = || format!("{}, answered {answer:?}", input());
    same_list(&one.0, &two.0, answered)?;
    same_list(&one.1, &two.1, answered)?;
    if leaves(answer.refusal()) {
        let written = || format!("{}, refused {answer:?} and written all the same (second: before)", input());
        same_list(&one.0, before.0, written)?;
        same_list(&one.1, before.1, written)?;
    }
    Ok((answer, one.0, one.1))
}

/// The month records of a claim into a list of `length` numbers.
pub fn compare_listing(first: Date, last: Date, claim: &Claim, length: usize) -> Result<(u64, Vec<i32>), String> {
    compare_record_listing(first, last, &claim_record(claim), length)
}

pub fn compare_record_listing(first: Date, last: Date, record: &[u8], length: usize) -> Result<(u64, Vec<i32>), String> {
    compare_lent(
        &pattern(length),
        |list| ffi::listing(first.to_number(), last.to_number(), record, list),
        |list| match read_claim(record) {
            None => u64::refused(WRONG_FORM),
            Some(claim) => wide_answer(listing(first, last, &claim, list).map(|count| count as u64)),
        },
        EACH,
        || format!("window {first} to {last}, {}, list of {length} numbers", described(record)),
    )
}

/// A record as a claim and as bytes.
fn described(record: &[u8]) -> String {
    let claim = read_claim(record).map_or("no record".into(), |claim| claim.to_string());
    format!("{claim}, bytes {}", hex(record))
}

/// Long enough for every listing.
pub const LONG_LIST: usize = 6 * 1_801;

/// Compares the runs over a file, with the rates and with their prepared table, and hands back the first one's numbers.
pub fn compare_file_study(file: &[u8], rates: &[u32]) -> Result<[i64; RUN_LENGTH], String> {
    let numbers = compare_plain_run(file, rates)?;
    let (_, table) = compare_prepare(&[rates, &[0]].concat())?;
    let prepared = compare_prepared_run(file, &table)?;
    same(prepared, numbers, || format!("prepared as first and plain as second, file\n{}rates {}", hex(file), list(rates)))?;
    Ok(numbers)
}

pub fn compare_plain_run(file: &[u8], rates: &[u32]) -> Result<[i64; RUN_LENGTH], String> {
    compare_runs(file, rates, ffi::file_study, run_file)
}

/// With a prepared table, or any other list.
pub fn compare_prepared_run(file: &[u8], table: &[u32]) -> Result<[i64; RUN_LENGTH], String> {
    compare_runs(file, table, ffi::prepared_file_study, run_prepared_file)
}

/// The run over a file with corrections.
pub fn compare_corrected_run(file: &[u8], rates: &[u32]) -> Result<[i64; RUN_LENGTH], String> {
    compare_runs(file, rates, ffi::corrected_study, run_corrected_file)
}

/// The study of a file with rates or a prepared table.
pub type FirstRun = fn(&[u8], &[u32], &mut [i64]) -> u8;

pub fn compare_runs(
    file: &[u8],
    table: &[u32],
    first: FirstRun,
    second: fn(&[u8], &[u32]) -> FileRun,
) -> Result<[i64; RUN_LENGTH], String> {
    let (_, numbers) = compare_lent(
        &pattern(RUN_LENGTH + 2),
        |out| first(file, table, out),
        |out| {
            let run = second(file, table);
            out[..RUN_LENGTH].copy_from_slice(&run.numbers());
            run.refused
        },
        ONLY_WRONG_FORM,
        || format!("file\n{}table {}", hex(file), list(table)),
    )?;
    Ok(numbers[..RUN_LENGTH].try_into().unwrap())
}

/// Prepares a table with both; the answer and the first one's table.
pub fn compare_prepare(table: &[u32]) -> Result<(u8, Vec<u32>), String> {
    compare_lent(table, ffi::prepare, |table| answer(&prepare(table)), EACH, || format!("preparing {}", list(table)))
}

/// Opens with both into a list of `length` numbers; the answer and the first one's list.
pub fn compare_open(first: Date, last: Date, length: usize) -> Result<(u8, Vec<i64>), String> {
    compare_lent(
        &pattern(length),
        |study| ffi::open(first.to_number(), last.to_number(), study),
        |study| match study.first_chunk_mut::<STUDY_LENGTH>() {
            None => WRONG_FORM,
            Some(numbers) => {
                let opened = Study::open(first, last);
                *numbers = opened.unwrap_or(Study::unopened()).numbers();
                answer(&opened)
            }
        },
        ONLY_WRONG_FORM,
        || format!("opening {first} to {last} in a list of {length}"),
    )
}

/// Adding a record to a study with rates, or withdrawing it, compared.
pub type Move = fn(&mut [i64], &[u8], &[u32]) -> Result<u8, String>;

/// Adds with both to a study of any numbers, which may be longer or shorter than asked for and has the first one's numbers afterwards.
pub fn compare_add(study: &mut [i64], record: &[u8], rates: &[u32]) -> Result<u8, String> {
    compare_move("added to", study, record, rates, ffi::add, |study, claim, rates| study.add(claim, &RateTable::new(rates)))
}

/// Withdraws with both, as `compare_add` adds.
pub fn compare_withdraw(study: &mut [i64], record: &[u8], rates: &[u32]) -> Result<u8, String> {
    compare_move("withdrawn from", study, record, rates, ffi::withdraw, |study, claim, rates| study.withdraw(claim, &RateTable::new(rates)))
}

/// Joins `other` to a study with both; either may have any numbers, and be longer or shorter than asked for. The study has the first one's
/// numbers afterwards, and `other` is never written.
pub fn compare_join(study: &mut [i64], other: &[i64]) -> Result<u8, String> {
    let input = || format!("joined to the study {study:?}\nthe study {other:?}");
    let (answer, joined, after) = compare_two_lent(
        (study, other),
        |study, other| ffi::join(study, other),
        |study, other| {
            let (Some(numbers), Some(other)) = (study.first_chunk_mut::<STUDY_LENGTH>(), other.first_chunk::<STUDY_LENGTH>()) else {
                return WRONG_FORM;
            };
            let mut sum = Study::of_numbers(numbers);
            let joined = sum.join(&Study::of_numbers(other));
            if joined.is_ok() {
                *numbers = sum.numbers();
            }
            answer(&joined)
        },
        EACH,
        input,
    )?;
    same_list(&after, other, || format!("{}\nwas written", input()))?;
    study.copy_from_slice(&joined);
    Ok(answer)
}

/// Moves with both, `table` being the rates or a prepared table.
pub fn compare_move(
    what: &str,
    study: &mut [i64],
    record: &[u8],
    table: &[u32],
    first: fn(&mut [i64], &[u8], &[u32]) -> u8,
    second: fn(&mut Study, &Claim, &[u32]) -> Result<(), Refusal>,
) -> Result<u8, String> {
    let (answer, moved) = compare_lent(
        study,
        |study| first(study, record, table),
        |study| {
            let (Some(numbers), Some(claim)) = (study.first_chunk_mut::<STUDY_LENGTH>(), read_claim(record)) else { return WRONG_FORM };
            let mut sum = Study::of_numbers(numbers);
            let moved = second(&mut sum, &claim, table);
            if moved.is_ok() {
                *numbers = sum.numbers();
            }
            answer(&moved)
        },
        EACH,
        || format!("{what} the study {study:?}\n{}table {}", described(record), list(table)),
    )?;
    study.copy_from_slice(&moved);
    Ok(answer)
}

/// Reads block 0 with both into a list of `length` numbers; the answer and the first one's list.
pub fn compare_read_window(block: &[u8], length: usize) -> Result<(u8, Vec<u32>), String> {
    compare_lent(
        &pattern(length),
        |dates| ffi::read_window(block, dates),
        |dates| match (dates.first_chunk_mut::<2>(), read_block(block, 0)) {
            (None, _) => WRONG_FORM,
            (Some(dates), Ok(Block::Window(first, last))) => {
                *dates = [first.to_number(), last.to_number()];
                0
            }
            _ => Refusal::Block.number(),
        },
        EACH,
        || format!("the window of a block into {length} numbers\n{}", hex(block)),
    )
}

pub fn compare_factor(group: u8, terminations: u32, expected: i64) -> Result<(), String> {
    compare_lent(
        &pattern(4),
        |out| ffi::factor(group, terminations, expected, out),
        |out| {
            let result = factor(group, terminations, expected);
            if let Ok(Factor { z, m, t }) = result {
                out[..3].copy_from_slice(&[z, m, t]);
            }
            answer(&result)
        },
        EACH,
        || format!("group {group}, C {terminations}, E {expected}"),
    )?;
    Ok(())
}

/// The first implementation's z, m and T.
pub fn first_factor(group: u8, c: u32, e: i64) -> Factor {
    let mut out = [0; 3];
    ffi::factor(group, c, e, &mut out);
    Factor { z: out[0], m: out[1], t: out[2] }
}

pub fn compare_wanted_count(group: u8, expected: i64, wanted: u64) -> Result<u64, String> {
    let answer = ffi::wanted_count(group, expected, wanted);
    let answer_2 = wide_answer(wanted_count(group, expected, wanted).map(u64::from));
    same(answer, answer_2, || format!("wanted T {wanted}, group {group}, E {expected}"))?;
    Ok(answer)
}

pub fn compare_valuation_rate(rates: &[u32], cell: u32, t: u64, duration: u32) -> Result<u64, String> {
    let answer = ffi::valuation_rate(rates, cell, t, duration);
    let answer_2 = wide_answer(valuation_rate(&RateTable::new(rates), cell, t, duration).map(u64::from));
    same(answer, answer_2, || format!("T {t}, cell {cell}, duration {duration}, rates {}", list(rates)))?;
    Ok(answer)
}

pub fn compare_reserve_factor(rates: &[u32], cell: u32, first: u32, t: &[u64; 5], months: u32, v: f64) -> Result<u8, String> {
    let (answer, _) = compare_lent(
        &pattern(2),
        |out| ffi::reserve_factor(rates, cell, first, t, months, v, out),
        |out| {
            let result = reserve_factor(&RateTable::new(rates), cell, first, t, months, v);
            if let Ok(value) = result {
                out[0] = value;
            }
            answer(&result)
        },
        EACH,
        || {
            let bits = v.to_bits();
            format!("cell {cell}, first {first}, T {t:?}, N {months}, V {v:e} (bits {bits:#x}), rates {}", list(rates))
        },
    )?;
    Ok(answer)
}

/// Judges the limit on reserves with both, into lists of `lengths` numbers for T and the totals; the answer and the first one's lists.
pub fn compare_reserve_limit(
    rates: &[u32],
    open_claims: &[u32],
    t: &[u64],
    group_3_count: u64,
    v: f64,
    lengths: [usize; 2],
) -> Result<(u8, Vec<u64>, Vec<f64>), String> {
    compare_two_lent(
        (&pattern(lengths[0]), &pattern(lengths[1])),
        |t_out, totals| ffi::reserve_limit(rates, open_claims, t, group_3_count, v, t_out, totals),
        |t_out, totals| {
            let (Ok(t), Some(t_out), Some(totals)) = (t.try_into(), t_out.first_chunk_mut::<5>(), totals.first_chunk_mut::<2>()) else {
                return WRONG_FORM;
            };
            let limited = reserve_limit(&RateTable::new(rates), open_claims, t, group_3_count, v);
            if let Ok(Limited { t, given, replaced }) = limited {
                (*t_out, *totals) = (t, [given, replaced]);
            }
            answer(&limited)
        },
        EACH,
        || {
            let (claims, bits) = (list(open_claims), v.to_bits());
            format!(
                "open claims {claims}, T {t:?}, group 3 count {group_3_count}, V {v:e} (bits {bits:#x}), lists of {lengths:?}, rates {}",
                list(rates)
            )
        },
    )
}

/// Draws a claim with both into lists of `lengths` items for x and the record; the answer and the first one's lists.
pub fn compare_load_claim(x: u32, size: u32, number: u32, lengths: [usize; 2]) -> Result<(u8, Vec<u32>, Vec<u8>), String> {
    compare_two_lent(
        (&pattern(lengths[0]), &pattern(lengths[1])),
        |x_out, claim| ffi::load_claim(x, size, number, x_out, claim),
        |x_out, claim| {
            let (Some(x_out), Some(record)) = (x_out.first_mut(), claim.first_chunk_mut::<CLAIM_LENGTH>()) else { return WRONG_FORM };
            let drawn = load_claim(x, size, number);
            if let Ok((claim, reached)) = drawn {
                (*x_out, *record) = (reached, claim_record(&claim));
            }
            answer(&drawn)
        },
        EACH,
        || format!("claim {number} of {size} from x {x}, lists of {lengths:?}"),
    )
}

/// Judges a carrier with both into a list of `length` numbers; the answer and the first one's list.
pub fn compare_small_company(
    valuation: Date,
    records: &[u8],
    new_t: &[u64],
    old_t: &[u64],
    length: usize,
) -> Result<(u8, Vec<u64>), String> {
    compare_lent(
        &pattern(length),
        |out| ffi::small_company(valuation.to_number(), records, new_t, old_t, out),
        |out| {
            let (Ok(new_t), Ok(old_t), Some(out)) = (new_t.try_into(), old_t.try_into(), out.first_chunk_mut::<9>()) else {
                return WRONG_FORM;
            };
            let found = small_company(valuation, records, new_t, old_t);
            if let Ok(SmallCompany { exempt, recent, earlier, group, t }) = found {
                out[..4].copy_from_slice(&[exempt.into(), recent, earlier, group.into()]);
                out[4..].copy_from_slice(&t);
            }
            answer(&found)
        },
        EACH,
        || format!("valued {valuation}, new T {new_t:?}, old T {old_t:?}, list of {length}, records {}", hex(records)),
    )
}

/// Reads a block with both into a list of `length` bytes; the answer and the first one's list.
pub fn compare_read_block(block: &[u8], due: u32, length: usize) -> Result<(u64, Vec<u8>), String> {
    compare_lent(
        &pattern(length),
        |claims| ffi::read_block(block, due, claims),
        |claims| match claims.first_chunk_mut::<RECORDS_LENGTH>() {
            None => u64::refused(WRONG_FORM),
            Some(records) => wide_answer(read_records(block, due, records).map(|count| count as u64)),
        },
        EACH,
        || format!("block due {due} into {length} bytes\n{}", hex(block)),
    )
}

/// Writes records with both into a list of `length` bytes; the answer and the first one's list.
pub fn compare_write_block(number: u32, records: &[u8], length: usize) -> Result<(u8, Vec<u8>), String> {
    compare_lent(
        &pattern(length),
        |block| ffi::write_block(number, records, block),
        |block| answer(&write_records(number, records, block)),
        EACH,
        || format!("writing block {number} of {length} bytes, records {}", hex(records)),
    )
}

pub fn compare_write_window(first: Date, last: Date, length: usize) -> Result<Vec<u8>, String> {
    let (_, block) = compare_lent(
        &pattern(length),
        |block| ffi::write_window(first.to_number(), last.to_number(), block),
        |block| answer(&write_window(first, last, block)),
        EACH,
        || format!("writing the window {first} to {last} into {length} bytes"),
    )?;
    Ok(block)
}

/// Bytes as lines of 32, lines of zeros left out.
pub fn hex(bytes: &[u8]) -> String {
    let mut text = format!("({} bytes; lines not shown are zeros)\n", bytes.len());
    for (i, line) in bytes.chunks(32).enumerate() {
        if line.iter().any(|&byte| byte != 0) {
            write!(text, "{:6}:", i * 32).unwrap();
            for byte in line {
                write!(text, " {byte:02x}").unwrap();
            }
            text.push('\n');
        }
    }
    text
}

/// Numbers, runs of one number as number*length.
pub fn list(numbers: &[u32]) -> String {
    let mut text = format!("({} numbers)", numbers.len());
    for run in numbers.chunk_by(|a, b| a == b) {
        match run.len() {
            1 => write!(text, " {}", run[0]),
            length => write!(text, " {}*{length}", run[0]),
        }
        .unwrap();
    }
    text
}
