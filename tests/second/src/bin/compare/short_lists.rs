//! Lent lists that have not the length asked for: 255, or the refusal that the header numbers, and nothing written. A short list is
//! looked at before anything else, so 255 comes before any refusal of the input.

use crate::inputs::{any_records, closed_claim, flat_rates, STUDY_WINDOW};
use crate::one_input::{hex, same, Answer, FirstRun, BLOCK, LONG_LIST, RATE_TABLE, SHORT_LIST, WRONG_FORM};
use crate::{test, Outcome, Test};
use second::block::{claim_record, write_records, BLOCK_LENGTH, CLAIM_LENGTH, RECORDS_LENGTH};
use second::calendar::Date;
use second::claim::{Claim, RECOVERY};
use second::ffi;
use second::generate::{claim_file, sound_claim, sound_rates, sound_window};
use second::months::listing;
use second::rng::Rng;
use second::run::RUN_LENGTH;
use std::fmt::Debug;

pub const TESTS: &[Test] = &[
    test("lent lists too short", 35, too_short_by_any),
    test("every lent list too short by one, the input sound", 36, too_short_by_one),
    test("lent lists too short, the input refused as well", 37, too_short_and_refused),
    test("lent lists too long", 38, too_long),
];

/// The call must refuse with `wanted` and leave the list of `length` numbers that it is lent for writing as it was.
fn untouched<T: PartialEq + Copy + Debug, A: Answer>(
    call: &str,
    wanted: u8,
    length: usize,
    blank: T,
    run: impl FnOnce(&mut [T]) -> A,
) -> Result<(), String> {
    let mut lent = vec![blank; length];
    let answer = run(&mut lent);
    if answer == A::refused(wanted) && lent.iter().all(|number| *number == blank) {
        Ok(())
    } else {
        Err(format!("{call}, a list of {length} lent: answered {answer:?} for the refusal {wanted}, list {lent:?}"))
    }
}

fn too_short<T: PartialEq + Copy + Debug, A: Answer>(
    call: &str,
    length: usize,
    blank: T,
    run: impl FnOnce(&mut [T]) -> A,
) -> Result<(), String> {
    untouched(call, WRONG_FORM, length, blank, run)
}

/// The study of a file with rates, and with their prepared table.
fn runs(rates: &[u32]) -> [(FirstRun, Vec<u32>); 2] {
    let mut table = [rates, &[0]].concat();
    ffi::prepare(&mut table);
    [(ffi::file_study, rates.to_vec()), (ffi::prepared_file_study, table)]
}

fn too_short_by_any(rng: &mut Rng) -> Outcome {
    let mut n = 0;
    let rates = flat_rates(10_000, 5_000);
    let claim = closed_claim("2009-06-11", "2012-04-29", RECOVERY);
    let file = claim_file(STUDY_WINDOW, &[claim], None);
    for length in 0..RUN_LENGTH {
        for (run, table) in runs(&rates) {
            too_short("study", length, -7, |out| run(&file, &table, out))?;
            too_short("study, no file", length, -7, |out| run(&[], &table, out))?;
            n += 2;
        }
    }
    for length in 0..3 {
        too_short("factor", length, 7, |out| ffi::factor(2, 10, 1_000_000, out))?;
        too_short("factor, no group", length, 7, |out| ffi::factor(0, 10, 1_000_000, out))?;
        n += 2;
    }
    let t = [1_000_000; 5];
    too_short("reserve factor", 0, 7.0, |out| ffi::reserve_factor(&rates, 0, 2, &t, 3, 0.5, out))?;
    for length in 0..5 {
        too_short("reserve factor, T", 1, 7.0, |out| ffi::reserve_factor(&rates, 0, 2, &t[..length], 3, 0.5, out))?;
        too_short("reserve factor, T, no rates", 1, 7.0, |out| ffi::reserve_factor(&[], 0, 2, &t[..length], 3, 0.5, out))?;
        n += 2;
    }
    for length in 0..RECORDS_LENGTH {
        too_short("reading", length, 7, |claims| ffi::read_block(&file[BLOCK_LENGTH..], 1, claims))?;
        too_short("reading block 0", length, 7, |claims| ffi::read_block(&file[..BLOCK_LENGTH], 0, claims))?;
        too_short("reading another block", length, 7, |claims| ffi::read_block(&file[..BLOCK_LENGTH], 1, claims))?;
        n += 3;
    }
    let record = claim_record(&claim);
    let [first, last] = [STUDY_WINDOW.0, STUDY_WINDOW.1].map(Date::to_number);
    for length in 0..CLAIM_LENGTH {
        too_short("listing, record", LONG_LIST, 7, |list| ffi::listing(first, last, &record[..length], list))?;
        too_short("listing, record, a bad window", LONG_LIST, 7, |list| ffi::listing(last, first, &record[..length], list))?;
        too_short("listing, record, no list", 0, 7, |list| ffi::listing(first, last, &record[..length], list))?;
        n += 3;
    }
    // Numbered as document 01 does.
    for length in 0..BLOCK_LENGTH {
        let records = any_records(rng, length % 16);
        untouched("writing, block", BLOCK, length, 7, |block| ffi::write_block(1, &records, block))?;
        untouched("writing a window, block", BLOCK, length, 7, |block| ffi::write_window(first, last, block))?;
        n += 2;
    }
    Ok(n)
}

/// Each list of each call in turn, the rest of the input sound and the other lists as long as asked for.
fn too_short_by_one(rng: &mut Rng) -> Outcome {
    let mut n = 0;
    for _ in 0..300 {
        let claim = sound_claim(rng);
        let (first, last) = sound_window(rng, &claim);
        let records = listing(first, last, &claim, &mut [0; LONG_LIST]).unwrap();
        if records > 0 {
            let run = |record: &[u8], list: &mut [i32]| ffi::listing(first.to_number(), last.to_number(), record, list);
            let (call, record) = (format!("listing {claim} in {first} to {last}"), claim_record(&claim));
            untouched(&call, SHORT_LIST, 6 * records - 1, -7, |list| run(&record, list))?;
            too_short(&call, 6 * records, -7, |list| run(&record[1..], list))?;
            n += 2;
        }

        // A refused file run gives its study, so with a short file or table out is written.
        let rates = sound_rates(rng, 1);
        let file = claim_file((first, last), &[Claim { cell: 0, ..claim }], None);
        let input = || format!("file\n{}", hex(&file));
        for (run, table) in runs(&rates) {
            too_short("study, out", RUN_LENGTH - 1, -7, |out| run(&file, &table, out))?;
            same(run(&file, &table[1..], &mut [0; RUN_LENGTH]), RATE_TABLE, input)?;
            same(run(&file[..file.len() - 1], &table, &mut [0; RUN_LENGTH]), BLOCK, input)?;
            n += 3;
        }

        let group = rng.range(1, 5) as u8;
        let e = rng.range(-5, 200_000_000_000);
        too_short("factor, out", 2, 7, |out| ffi::factor(group, rng.below(500_001) as u32, e, out))?;

        let (duration, months, t) = (rng.range(2, 480) as u32, rng.range(0, 480) as u32, [rng.below(2_000_000); 5]);
        let short = &rates[1..];
        same(ffi::valuation_rate(short, 0, t[0], duration), u64::refused(RATE_TABLE), || "valuation rate, rates".into())?;
        untouched("reserve factor, rates", RATE_TABLE, 1, 7.0, |out| ffi::reserve_factor(short, 0, duration, &t, months, 0.5, out))?;
        too_short("reserve factor, T", 1, 7.0, |out| ffi::reserve_factor(&rates, 0, duration, &t[1..], months, 0.5, out))?;
        too_short("reserve factor, out", 0, 7.0, |out| ffi::reserve_factor(&rates, 0, duration, &t, months, 0.5, out))?;

        let count = rng.range(1, 15) as usize;
        let records = any_records(rng, count);
        let number = rng.range(1, 65_535) as u32;
        let mut block = [0; BLOCK_LENGTH];
        write_records(number, &records, &mut block).unwrap();
        too_short("reading, claims", RECORDS_LENGTH - 1, 7, |claims| ffi::read_block(&block, number, claims))?;
        too_short("reading block 0, claims", RECORDS_LENGTH - 1, 7, |claims| ffi::read_block(&file[..BLOCK_LENGTH], 0, claims))?;
        let read = |block: &[u8], due: u32, claims: &mut [u8]| ffi::read_block(&block[..BLOCK_LENGTH - 1], due, claims);
        untouched("reading, block", BLOCK, RECORDS_LENGTH, 7, |claims| read(&block, number, claims))?;
        untouched("reading block 0, block", BLOCK, RECORDS_LENGTH, 7, |claims| read(&file, 0, claims))?;
        let write = |records: &[u8], block: &mut [u8]| ffi::write_block(number, records, block);
        untouched("writing, claims", BLOCK, BLOCK_LENGTH, 7, |block| write(&records[1..], block))?;
        untouched("writing, block", BLOCK, BLOCK_LENGTH - 1, 7, |block| write(&records, block))?;
        let run = |block: &mut [u8]| ffi::write_window(first.to_number(), last.to_number(), block);
        untouched("writing a window, block", BLOCK, BLOCK_LENGTH - 1, 7, run)?;
        n += 12;
    }
    Ok(n)
}

/// 255 also where the input, or another of the lists, would be refused under a number.
fn too_short_and_refused(rng: &mut Rng) -> Outcome {
    let mut n = 0;
    for _ in 0..300 {
        let rates = sound_rates(rng, 1);
        let records = any_records(rng, 3);
        let t = [1_000_000; 5];
        let file = claim_file((STUDY_WINDOW.1, STUDY_WINDOW.0), &[], None);
        for (run, table) in runs(&rates) {
            too_short("study, a bad window", RUN_LENGTH - 1, -7, |out| run(&file, &table, out))?;
            too_short("study, a part block", RUN_LENGTH - 1, -7, |out| run(&file[..511], &table, out))?;
            too_short("study, no table", RUN_LENGTH - 1, -7, |out| run(&file, &[], out))?;
            n += 3;
        }
        too_short("factor, group", 2, 7, |out| ffi::factor(rng.pick(&[0, 6, 255]), 10, 1_000_000, out))?;
        too_short("factor, C", 2, 7, |out| ffi::factor(2, 500_001, 1_000_000, out))?;
        let table = &rates[..];
        let refused = [
            (&rates[1..], 0, 2, 3, 0.5),
            (table, 1, 2, 3, 0.5),
            (table, 0, 481, 3, 0.5),
            (table, 0, 2, 481, 0.5),
            (table, 0, 2, 3, f64::NAN),
        ];
        for (table, cell, first, months, v) in refused {
            too_short("reserve factor, out", 0, 7.0, |out| ffi::reserve_factor(table, cell, first, &t, months, v, out))?;
            too_short("reserve factor, T", 1, 7.0, |out| ffi::reserve_factor(table, cell, first, &t[1..], months, v, out))?;
        }
        let short = RECORDS_LENGTH - 1;
        too_short("reading, block", short, 7, |claims| ffi::read_block(&file[..511], 0, claims))?;
        too_short("reading, due", short, 7, |claims| ffi::read_block(&file, rng.range(1, 70_000) as u32, claims))?;
        let number = rng.pick(&[0, 65_536, u32::MAX]);
        untouched("writing, number", BLOCK, BLOCK_LENGTH, 7, |block| ffi::write_block(number, &records[1..], block))?;
        untouched("writing, block", BLOCK, BLOCK_LENGTH - 1, 7, |block| ffi::write_block(1, &records[1..], block))?;
        n += 16;
    }
    Ok(n)
}

/// A list lent for writing may be longer, which every comparison has; these may not.
fn too_long(rng: &mut Rng) -> Outcome {
    let rates = sound_rates(rng, 1);
    let mut longer = rates.clone();
    longer.push(0);
    let t = [1_000_000; 6];
    too_short("reserve factor, T", 1, 7.0, |out| ffi::reserve_factor(&rates, 0, 2, &t, 3, 0.5, out))?;
    too_short("reserve factor, T, no rates", 1, 7.0, |out| ffi::reserve_factor(&[], 0, 2, &t, 3, 0.5, out))?;
    untouched("reserve factor, rates", RATE_TABLE, 1, 7.0, |out| ffi::reserve_factor(&longer, 0, 2, &t[..5], 3, 0.5, out))?;
    let mut block = [0; BLOCK_LENGTH + 1];
    write_records(1, &any_records(rng, 1), &mut block[..BLOCK_LENGTH]).unwrap();
    untouched("reading, block", BLOCK, RECORDS_LENGTH, 7, |claims| ffi::read_block(&block, 1, claims))?;
    untouched("writing, block", BLOCK, BLOCK_LENGTH + 1, 7, |block| ffi::write_block(1, &[], block))?;
    untouched("writing a window, block", BLOCK, BLOCK_LENGTH + 1, 7, |block| {
        ffi::write_window(STUDY_WINDOW.0.to_number(), STUDY_WINDOW.1.to_number(), block)
    })?;
    Ok(6)
}
