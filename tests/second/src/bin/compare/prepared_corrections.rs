//! Runs with corrections and a prepared table: what they are with its rates, with other tables in its place, and with lists that were never
//! prepared.

use crate::corrections::{damage_fields, repeating_claims};
use crate::inputs::{closed_claim, file_of, sound_claims, STUDY_WINDOW};
use crate::one_input::{
    compare_corrected_run, compare_runs, had_often, hex, same, BLOCK, CELL, RATE, RATE_TABLE, RECORDS, STATUS, WINDOW, WRONG_FORM,
};
use crate::prepared::{any_file, any_sums, table_of};
use crate::prepared_studies::{no_tables, prepared};
use crate::{test, Outcome, Test};
use second::block::BLOCK_LENGTH;
use second::claim::{Claim, RECOVERY};
use second::ffi;
use second::generate::{claim_file, damage_file, damage_rates, sound_rates, sound_window};
use second::rng::Rng;
use second::run::{run_prepared_corrected_file, MOST_RECORDS, RUN_LENGTH};

pub const TESTS: &[Test] = &[
    test("prepared corrections: files sound and damaged", 139, corrected),
    test("prepared corrections: lists never prepared", 140, corrected_never_prepared),
    test("prepared corrections: about 60,000 records", 141, about_60_000),
    test("prepared corrections: lists too short for the study", 142, too_short),
    test("prepared corrections: one kind of table in the place of the other", 143, other_tables),
];

fn compare_prepared_corrected_run(file: &[u8], table: &[u32]) -> Result<[i64; RUN_LENGTH], String> {
    compare_runs(file, table, ffi::prepared_corrected_study, run_prepared_corrected_file)
}

/// 6 at the first claim.
fn other_tables(rng: &mut Rng) -> Outcome {
    let mut n = 0;
    for _ in 0..1_500 {
        let cells = rng.range(1, 2) as usize;
        let rates = sound_rates(rng, cells);
        let file = claim_file(STUDY_WINDOW, &sound_claims(rng, 1, cells), None);
        for table in no_tables(rng, &rates)? {
            let run = compare_prepared_corrected_run(&file, &table)?;
            same(&run[..3], &[RATE_TABLE as i64, 1, 1], || format!("{} numbers as a prepared table", table.len()))?;
            n += 1;
        }
    }
    Ok(n)
}

/// Compares the corrected run with the prepared table of some rates, which must be the one with these rates.
fn compare_prepared_corrected(file: &[u8], rates: &[u32]) -> Result<[i64; RUN_LENGTH], String> {
    let run = compare_prepared_corrected_run(file, &prepared(rates)?)?;
    let plain = compare_corrected_run(file, rates)?;
    same(run, plain, || format!("prepared as first and plain as second, file\n{}", hex(file)))?;
    Ok(run)
}

fn corrected(rng: &mut Rng) -> Outcome {
    let (n, mut answers) = (100_000, [0; 256]);
    for _ in 0..n {
        let cells = rng.range(1, 2) as usize;
        let mut rates = sound_rates(rng, cells);
        let count = rng.pick(&[1, 2, 6, 16]);
        let mut claims = repeating_claims(rng, count, cells);
        let mut window = sound_window(rng, &claims[0]);
        if rng.one_in(12) {
            window = (window.1, window.0);
        }
        let one_in = rng.pick(&[2, 12, 1_000]);
        for claim in &mut claims {
            if rng.one_in(one_in) {
                damage_fields(rng, claim);
            }
        }
        if rng.one_in(4) {
            damage_rates(rng, &mut rates);
        }
        let mut file = file_of(rng, window, &claims);
        if rng.one_in(8) {
            damage_file(rng, &mut file);
        }
        answers[compare_prepared_corrected(&file, &rates)?[0] as usize] += 1;
    }
    had_often(&answers, &[0, WINDOW, 2, STATUS, 4, 5, RATE_TABLE, CELL, RATE, BLOCK])?;
    Ok(n)
}

fn corrected_never_prepared(rng: &mut Rng) -> Outcome {
    let (mut n, mut answers) = (0, [0; 256]);
    for _ in 0..4_000 {
        let cells = rng.range(1, 2) as usize;
        let sums: Vec<u32> = (0..cells).flat_map(|_| any_sums(rng)).collect();
        let table = table_of(&sums, if rng.one_in(16) { rng.pick(&[0, 2, u32::MAX]) } else { 1 });
        for _ in 0..6 {
            answers[compare_prepared_corrected_run(&any_file(rng, cells), &table)?[0] as usize] += 1;
            n += 1;
        }
    }
    had_often(&answers, &[0, RATE_TABLE, CELL, RATE])?;
    Ok(n)
}

/// 14 comes before any claim, so whatever the table.
fn about_60_000(rng: &mut Rng) -> Outcome {
    let mut n = 0;
    let table = prepared(&sound_rates(rng, 1))?;
    let claim = closed_claim("2009-06-11", "2012-04-29", RECOVERY);
    for numbers in [1, 30_000, MOST_RECORDS as u32 + 10] {
        let claims: Vec<Claim> = (0..=MOST_RECORDS as u32).map(|i| Claim { number: i % numbers, ..claim }).collect();
        let [most, more] = [&claims[1..], &claims[..]].map(|claims| claim_file(STUDY_WINDOW, claims, None));
        let taken = (numbers as i64).min(MOST_RECORDS as i64);
        for (file, table, wanted) in
            [(&most, &table[..], [0, taken]), (&more, &table, [RECORDS as i64, 0]), (&more, &[], [RECORDS as i64, 0])]
        {
            let run = compare_prepared_corrected_run(file, table)?;
            same([run[0], run[5]], wanted, || format!("{} blocks, {numbers} claim numbers", file.len() / BLOCK_LENGTH))?;
            n += 1;
        }
    }
    Ok(n)
}

/// 255 before anything else, and nothing written.
fn too_short(rng: &mut Rng) -> Outcome {
    let mut n = 0;
    let table = prepared(&sound_rates(rng, 1))?;
    let sound = claim_file(STUDY_WINDOW, &repeating_claims(rng, 20, 1), None);
    for length in 0..RUN_LENGTH {
        for (file, table) in [(&sound[..], &table[..]), (&sound[1..], &table), (&sound, &[]), (&[], &[])] {
            let mut out = vec![-7; length];
            let answer = ffi::prepared_corrected_study(file, table, &mut out);
            same((answer, out), (WRONG_FORM, vec![-7; length]), || format!("a list of {length}"))?;
            n += 1;
        }
    }
    Ok(n)
}
