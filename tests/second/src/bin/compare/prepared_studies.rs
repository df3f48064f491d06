//! Adding and withdrawing with a prepared table: what they are with its rates, with other tables in its place, and with lists that were
//! never prepared.

use crate::inputs::{missing_cell, sound_claims};
use crate::one_input::{
    compare_add, compare_move, compare_prepare, compare_withdraw, had_often, same, Move, BENEFIT, CELL, FULL, NOT_TAKEN, RATE, RATE_TABLE,
    STATUS, WINDOW, WRONG_FORM,
};
use crate::prepared::{any_sums, table_of};
use crate::studies::{about_bounds, any_claim, any_numbers, is_unsigned, passing_study, wrong_form, ENOUGH};
use crate::withdraw::after_check_9;
use crate::{test, Outcome, Test};
use second::block::claim_record;
use second::claim::Claim;
use second::ffi;
use second::generate::sound_rates;
use second::rates::PreparedTable;
use second::rng::Rng;
use second::study::{MOST_CLAIMS, STUDY_LENGTH};

pub const TESTS: &[Test] = &[
    test("prepared adding: to a study with any numbers", 131, to_any_numbers),
    test("prepared adding: numbers about their bounds, and the order of the checks", 132, adding_about_bounds),
    test("prepared adding: records and lists that have not the form asked for", 133, |rng| wrong_form(rng, add_prepared, 0)),
    test("prepared withdrawing: from a study with any numbers", 134, from_any_numbers),
    test("prepared withdrawing: numbers about their bounds, and the order of the checks", 135, withdrawing_about_bounds),
    test("prepared withdrawing: records and lists that have not the form asked for", 136, |rng| {
        wrong_form(rng, withdraw_prepared, NOT_TAKEN)
    }),
    test("prepared adding and withdrawing: one kind of table in the place of the other", 137, other_tables),
    test("prepared adding and withdrawing: lists never prepared", 138, never_prepared),
];

/// Adds with both, with a prepared table or any other list.
fn compare_prepared_add(study: &mut [i64], record: &[u8], table: &[u32]) -> Result<u8, String> {
    compare_move("added, prepared, to", study, record, table, ffi::prepared_add, |study, claim, table| {
        study.add(claim, &PreparedTable(table))
    })
}

fn compare_prepared_withdraw(study: &mut [i64], record: &[u8], table: &[u32]) -> Result<u8, String> {
    compare_move("withdrawn, prepared, from", study, record, table, ffi::prepared_withdraw, |study, claim, table| {
        study.withdraw(claim, &PreparedTable(table))
    })
}

pub fn prepared(rates: &[u32]) -> Result<Vec<u32>, String> {
    Ok(compare_prepare(&table_of(rates, 0))?.1)
}

/// A move with the prepared table of some rates is the move with these rates, whatever they are.
fn as_plain(study: &mut [i64], record: &[u8], rates: &[u32], with_rates: Move, with_table: Move) -> Result<u8, String> {
    let mut plain = study.to_vec();
    let wanted = with_rates(&mut plain, record, rates)?;
    let answer = with_table(study, record, &prepared(rates)?)?;
    same((answer, &study[..]), (wanted, &plain[..]), || "prepared as first and plain as second".into())?;
    Ok(answer)
}

fn add_prepared(study: &mut [i64], record: &[u8], rates: &[u32]) -> Result<u8, String> {
    as_plain(study, record, rates, compare_add, compare_prepared_add)
}

fn withdraw_prepared(study: &mut [i64], record: &[u8], rates: &[u32]) -> Result<u8, String> {
    as_plain(study, record, rates, compare_withdraw, compare_prepared_withdraw)
}

fn to_any_numbers(rng: &mut Rng) -> Outcome {
    any_numbers(rng, add_prepared, &[0, 1, 2, 3, 4, 5, 6, 7, 8, FULL, BENEFIT, WRONG_FORM])
}

fn from_any_numbers(rng: &mut Rng) -> Outcome {
    any_numbers(rng, withdraw_prepared, &[0, 1, 2, 3, 4, 5, 6, 7, 8, FULL, BENEFIT, NOT_TAKEN, WRONG_FORM])
}

fn adding_about_bounds(rng: &mut Rng) -> Outcome {
    about_bounds(rng, add_prepared, MOST_CLAIMS as i64 - 1, |_| &[0])
}

fn withdrawing_about_bounds(rng: &mut Rng) -> Outcome {
    about_bounds(rng, withdraw_prepared, MOST_CLAIMS as i64, after_check_9)
}

/// A study within its bounds that any claim can be withdrawn from.
fn rich_study(rng: &mut Rng, claim: &Claim) -> Vec<i64> {
    let mut study = passing_study(rng, claim);
    (2..STUDY_LENGTH).filter(|&place| is_unsigned(place)).for_each(|place| study[place] = study[place].max(ENOUGH));
    study
}

/// Lists that are no prepared table, made of some rates and of their sums.
pub fn no_tables(rng: &mut Rng, rates: &[u32]) -> Result<Vec<Vec<u32>>, String> {
    let table = prepared(rates)?;
    let (sums, any) = (&table[..rates.len()], rng.bits() as u32 | 2);
    let mut lists = vec![rates.to_vec(), sums.to_vec(), table_of(&sums[1..], 1), table_of(&table, 1), vec![1], Vec::new()];
    lists.extend([0, 2, 257, u32::MAX, any].map(|last| table_of(sums, last)));
    lists.push(table_of(rates, 0));
    Ok(lists)
}

/// 6 after the window and the claim, before the room.
fn other_tables(rng: &mut Rng) -> Outcome {
    let mut n = 0;
    for _ in 0..1_500 {
        let cells = rng.range(1, 2) as usize;
        let rates = sound_rates(rng, cells);
        let claim = sound_claims(rng, 1, cells)[0];
        let study = rich_study(rng, &claim);
        let (mut bad_window, mut full) = (study.clone(), study.clone());
        (bad_window[0], full[2]) = (-1, -1);
        for table in no_tables(rng, &rates)? {
            let input = || format!("{} numbers, the last one {:?}, as a prepared table", table.len(), table.last());
            for call in [compare_prepared_add, compare_prepared_withdraw] {
                let answer = |study: &[i64], claim: &Claim| call(&mut study.to_vec(), &claim_record(claim), &table);
                same([answer(&study, &claim)?, answer(&full, &claim)?], [RATE_TABLE; 2], input)?;
                same(answer(&bad_window, &claim)?, WINDOW, input)?;
                same(answer(&full, &Claim { status: 9, ..claim })?, STATUS, input)?;
            }
            n += 8;
        }
        // A prepared one as plain.
        let table = prepared(&rates)?;
        same(compare_add(&mut study.clone(), &claim_record(&claim), &table)?, RATE_TABLE, || "prepared as plain".into())?;
    }
    Ok(n)
}

/// What such a list makes of a claim's share is taken off again by withdrawing.
fn never_prepared(rng: &mut Rng) -> Outcome {
    let (mut n, mut answers) = (0, [0; 256]);
    for _ in 0..12_000 {
        let cells = rng.range(1, 2) as usize;
        let sums: Vec<u32> = (0..cells).flat_map(|_| any_sums(rng)).collect();
        let last = if rng.one_in(16) { rng.pick(&[0, 2, u32::MAX]) } else { 1 };
        let table = table_of(&sums, last);
        for _ in 0..9 {
            let mut claim = any_claim(rng, cells);
            if rng.one_in(8) {
                claim.cell = missing_cell(rng, cells) as u16;
            }
            let (record, before) = (claim_record(&claim), rich_study(rng, &claim));
            let mut study = before.clone();
            let added = compare_prepared_add(&mut study, &record, &table)?;
            let withdrawn = compare_prepared_withdraw(&mut study, &record, &table)?;
            if added == 0 && withdrawn == 0 {
                same(&study, &before, || format!("{claim} added and withdrawn"))?;
            }
            compare_prepared_withdraw(&mut before.clone(), &record, &table)?;
            answers[added as usize] += 1;
            n += 3;
        }
    }
    had_often(&answers, &[0, RATE_TABLE, CELL, RATE])?;
    Ok(n)
}
