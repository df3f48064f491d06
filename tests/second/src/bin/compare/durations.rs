//! The sums of each duration of a claim file: against the second implementation's, the file's own study, the claims' listings, and the rows
//! of other lengths, windows and tables.

use crate::file_runs::first_run;
use crate::inputs::{closed_claim, file_of, flat_rates, missing_cell, sound_claims, sound_study, STUDY_WINDOW};
use crate::one_input::{
    compare_lent, compare_listing, compare_prepare, had_often, hex, list, pattern, same, FirstRun, BLOCK, CELL, FULL, LONG_LIST,
    ONLY_WRONG_FORM, RATE, RATE_TABLE, WINDOW, WRONG_FORM,
};
use crate::prepared::{any_file, any_sums, table_of};
use crate::windows::parts;
use crate::{test, Outcome, Test};
use second::block::{write_block, BLOCK_LENGTH};
use second::claim::LIMIT;
use second::durations::{rows_in, run_durations, run_prepared_durations, DurationRun, MOST_ROWS, ROWS_AT};
use second::ffi;
use second::generate::{claim_file, damage_claim, damage_file, damage_rates, sound_rates, sound_window, wild_date};
use second::rates::DURATIONS;
use second::rng::Rng;
use second::study::{GROUP_LENGTH, MOST_CLAIMS};

pub const TESTS: &[Test] = &[
    test("durations: files sound and damaged", 143, files),
    test("durations: the listing of one claim", 144, one_listing),
    test("durations: each number of rows", 145, each_number_of_rows),
    test("durations: lists of other lengths", 146, other_lengths),
    test("durations: the rows of the parts total those of the whole", 147, in_parts),
    test("durations: every length of a short file", 148, every_length),
    test("durations: long files", 149, long),
    test("durations: tables of the other kind and lists never prepared", 150, other_tables),
    test("durations: full at 500,000 claims", 0, full),
];

const LONGEST: usize = length_of(MOST_ROWS);

const fn length_of(rows: usize) -> usize {
    ROWS_AT + GROUP_LENGTH * rows
}

type SecondRows = fn(&[u8], &[u32], usize) -> DurationRun;

/// Runs with both into a list of `length` numbers; the answer and the first one's list.
fn compare_rows(file: &[u8], table: &[u32], length: usize, first: FirstRun, second: SecondRows) -> Result<(u8, Vec<i64>), String> {
    compare_lent(
        &pattern(length),
        |out| first(file, table, out),
        |out| match rows_in(length) {
            None => WRONG_FORM,
            Some(rows) => {
                let run = second(file, table, rows);
                out.copy_from_slice(&run.numbers());
                run.refused
            }
        },
        ONLY_WRONG_FORM,
        || format!("a list of {length}, file\n{}table {}", hex(file), list(table)),
    )
}

fn compare_plain(file: &[u8], rates: &[u32], length: usize) -> Result<(u8, Vec<i64>), String> {
    compare_rows(file, rates, length, ffi::durations, run_durations)
}

/// With a prepared table, or any other list.
fn compare_prepared(file: &[u8], table: &[u32], length: usize) -> Result<(u8, Vec<i64>), String> {
    compare_rows(file, table, length, ffi::prepared_durations, run_prepared_durations)
}

/// Compares the runs with the rates and with their prepared table, holds them to the file's study, and hands back the first one's numbers.
fn compare_durations(file: &[u8], rates: &[u32], rows: usize) -> Result<Vec<i64>, String> {
    let (_, numbers) = compare_plain(file, rates, length_of(rows))?;
    let (_, table) = compare_prepare(&table_of(rates, 0))?;
    let (_, prepared) = compare_prepared(file, &table, length_of(rows))?;
    let input = || format!("{rows} rows, file\n{}rates {}", hex(file), list(rates));
    same(prepared == numbers, true, || format!("prepared and plain, {}", input()))?;
    total_their_groups(&numbers, &first_run(ffi::file_study, file, rates), input)?;
    Ok(numbers)
}

/// The sum of some rows.
fn total(rows: &[i64]) -> Vec<i64> {
    (0..GROUP_LENGTH).map(|i| rows.iter().skip(i).step_by(GROUP_LENGTH).sum()).collect()
}

/// The file run's number, block, place and claims taken, and its groups as the sums of their durations' rows. The last row may have
/// durations of later groups too.
fn total_their_groups(numbers: &[i64], run: &[i64], input: impl Fn() -> String) -> Result<(), String> {
    let (head, rows) = numbers.split_at(ROWS_AT);
    same(head, &[run[0], run[1], run[2], run[5]], &input)?;
    let (groups, n) = (&run[6..6 + 5 * GROUP_LENGTH], rows.len() / GROUP_LENGTH);
    same(total(rows), total(groups), &input)?;
    for (group, (before, last)) in groups.chunks(GROUP_LENGTH).zip([(0, 3), (3, 24), (24, 60), (60, 120), (120, usize::MAX)]) {
        if last < n || (last == usize::MAX && before < n) {
            let of_group = &rows[GROUP_LENGTH * before..GROUP_LENGTH * last.min(n)];
            same(&total(of_group)[..], group, || format!("durations {} to {last}, {}", before + 1, input()))?;
        }
    }
    Ok(())
}

/// Rows to the last duration of a group, to the last one with rates, and to any.
fn any_rows(rng: &mut Rng) -> usize {
    let any = rng.range(1, MOST_ROWS as i64) as usize;
    let few = rng.range(1, 130) as usize;
    rng.pick(&[1, 2, 24, 120, 121, 480, 1_999, MOST_ROWS, any, few, few, few, few, few, few, few])
}

fn files(rng: &mut Rng) -> Outcome {
    let (n, mut answers) = (100_000, [0; 256]);
    for i in 0..n {
        let cells = rng.range(1, 2) as usize;
        let mut rates = sound_rates(rng, cells);
        let count = rng.pick(&[0, 1, 1, 2, 4, 20]);
        let mut claims = sound_claims(rng, count, cells);
        let mut window = sound_window(rng, &claims.first().copied().unwrap_or_default());
        // Every other file is sound.
        let damages = |rng: &mut Rng| i % 2 == 1 && rng.one_in(3);
        if damages(rng) {
            damage_rates(rng, &mut rates);
        }
        if damages(rng) && rng.one_in(3) {
            window = (window.0, wild_date(rng));
        }
        if damages(rng) && count > 0 {
            let place = rng.below(count as u64) as usize;
            match rng.below(3) {
                0 => claims[place].cell = missing_cell(rng, cells) as u16,
                _ => damage_claim(rng, &mut claims[place]),
            }
        }
        let mut file = file_of(rng, window, &claims);
        if damages(rng) {
            damage_file(rng, &mut file);
        }
        let rows = any_rows(rng);
        answers[compare_durations(&file, &rates, rows)?[0] as usize] += 1;
    }
    had_often(&answers, &[0, WINDOW, 2, 3, RATE_TABLE, CELL, BLOCK])?;
    Ok(n)
}

/// A row is the thirtieths of its duration in the first one's listing, its category, and both times the rates.
fn one_listing(rng: &mut Rng) -> Outcome {
    let n = 10_000;
    for _ in 0..n {
        let rates = sound_rates(rng, 1);
        let claim = sound_claims(rng, 1, 1)[0];
        let (first, last) = sound_window(rng, &claim);
        let rows = any_rows(rng);
        let numbers = compare_durations(&claim_file((first, last), &[claim], None), &rates, rows)?;
        let (records, listed) = compare_listing(first, last, &claim, LONG_LIST)?;
        let mut wanted = vec![0; length_of(rows)];
        wanted[3] = 1;
        for record in listed.chunks(6).take(records as usize) {
            let [duration, thirtieths, category] = [record[0], record[3], record[5]];
            let row = &mut wanted[length_of(rows.min(duration as usize) - 1)..][..GROUP_LENGTH];
            let rate = duration.min(480) as usize - 2;
            row[0] += thirtieths as i64;
            row[6] += thirtieths as i64 * rates[rate] as i64;
            row[7] += thirtieths as i64 * rates[DURATIONS + rate] as i64;
            if category != 0 {
                row[category as usize] += 1;
            }
        }
        same(numbers == wanted, true, || format!("{claim} in {first} to {last}, {rows} rows\n  first: {numbers:?}\n  listed: {wanted:?}"))?;
    }
    Ok(n)
}

/// Fewer rows are the first of more, and the last of them has all that follow.
fn each_number_of_rows(rng: &mut Rng) -> Outcome {
    let mut n = 0;
    let (mut file, mut rates, mut all) = (Vec::new(), Vec::new(), Vec::new());
    for rows in 1..=MOST_ROWS {
        if rows % 40 == 1 {
            let (window, claims, table) = sound_study(rng, 12);
            (file, rates) = (file_of(rng, window, &claims), table);
            all = compare_durations(&file, &rates, MOST_ROWS)?;
        }
        let numbers = compare_durations(&file, &rates, rows)?;
        let last_at = length_of(rows - 1);
        let wanted = [&all[..last_at], &total(&all[last_at..])].concat();
        same(numbers == wanted, true, || format!("{rows} rows of {MOST_ROWS}, file\n{}", hex(&file)))?;
        n += 1;
    }
    Ok(n)
}

/// A file, rates, their prepared table, and whether all are sound.
type Input<'a> = (&'a [u8], &'a [u32], &'a [u32], bool);

/// 255 before anything else, and nothing written; a longer list is none either.
fn other_lengths(rng: &mut Rng) -> Outcome {
    let mut n = 0;
    let (rates, claims) = (sound_rates(rng, 1), sound_claims(rng, 16, 1));
    let (_, table) = compare_prepare(&table_of(&rates, 0))?;
    let file = claim_file(STUDY_WINDOW, &claims, None);
    let bad_window = claim_file((STUDY_WINDOW.1, STUDY_WINDOW.0), &[], None);
    let (rates, table) = (&rates[..], &table[..]);
    let inputs: [Input; 5] = [
        (&file, rates, table, true),
        (&file, &[], &[], false),
        (&file[1..], rates, table, false),
        (&bad_window, rates, table, false),
        (&[], rates, table, false),
    ];
    let mut lengths: Vec<usize> = (0..=length_of(30)).collect();
    for rows in [120, 480, 1_998, 1_999, MOST_ROWS, MOST_ROWS + 1, 2 * MOST_ROWS] {
        lengths.extend(length_of(rows) - 9..=length_of(rows) + 9);
    }
    lengths.extend((0..400).map(|_| rng.below(LONGEST as u64 + 100) as usize));
    for length in lengths {
        let has_rows = length >= 12 && (length - 4).is_multiple_of(8) && length <= 4 + 8 * 2_000;
        for (file, rates, table, sound) in inputs {
            for (answer, _) in [compare_plain(file, rates, length)?, compare_prepared(file, table, length)?] {
                let input = || format!("a list of {length}, the rest sound: {sound}");
                same((answer == WRONG_FORM, answer == 0), (!has_rows, has_rows && sound), input)?;
                n += 1;
            }
        }
    }
    Ok(n)
}

fn in_parts(rng: &mut Rng) -> Outcome {
    let mut n = 0;
    for _ in 0..1_500 {
        let (window, mut claims, rates) = sound_study(rng, 16);
        // A refused claim stops all parts at one place.
        if rng.one_in(4) && !claims.is_empty() {
            let place = rng.below(claims.len() as u64) as usize;
            claims[place].status = 9;
        }
        let rows = any_rows(rng);
        let whole = compare_durations(&claim_file(window, &claims, None), &rates, rows)?;
        let mut sum = vec![0; length_of(rows)];
        let cuts = rng.below(5);
        for part in parts(rng, window, cuts) {
            let numbers = compare_durations(&claim_file(part, &claims, None), &rates, rows)?;
            same(&numbers[..ROWS_AT], &whole[..ROWS_AT], || format!("{} to {} and the whole", part.0, part.1))?;
            sum.iter_mut().zip(&numbers).for_each(|(sum, number)| *sum += number);
            n += 1;
        }
        same(sum[ROWS_AT..] == whole[ROWS_AT..], true, || format!("the rows of the parts of {} to {}, {claims:?}", window.0, window.1))?;
        n += 1;
    }
    Ok(n)
}

fn every_length(rng: &mut Rng) -> Outcome {
    let rates = sound_rates(rng, 1);
    let mut file = claim_file(STUDY_WINDOW, &sound_claims(rng, 17, 1), None);
    file.extend([0; BLOCK_LENGTH]);
    for length in 0..=file.len() {
        let rows = any_rows(rng);
        compare_durations(&file[..length], &rates, rows)?;
    }
    Ok(file.len() as u64 + 1)
}

fn long(rng: &mut Rng) -> Outcome {
    let mut n = 0;
    for rows in [1, 120, 480, MOST_ROWS] {
        let rates = sound_rates(rng, 16);
        let claims = sound_claims(rng, 20_000, 16);
        let window = sound_window(rng, &claims[0]);
        compare_durations(&claim_file(window, &claims, None), &rates, rows)?;
        n += 1;
    }
    Ok(n)
}

fn other_tables(rng: &mut Rng) -> Outcome {
    let (mut n, mut answers) = (0, [0; 256]);
    for _ in 0..3_000 {
        let cells = rng.range(1, 2) as usize;
        let sums: Vec<u32> = (0..cells).flat_map(|_| any_sums(rng)).collect();
        let table = table_of(&sums, if rng.one_in(16) { rng.pick(&[0, 2, u32::MAX]) } else { 1 });
        for _ in 0..8 {
            let (file, rows) = (any_file(rng, cells), any_rows(rng));
            let (answer, numbers) = compare_prepared(&file, &table, length_of(rows))?;
            let run = first_run(ffi::prepared_file_study, &file, &table);
            total_their_groups(&numbers, &run, || format!("{rows} rows, file\n{}table {}", hex(&file), list(&table)))?;
            answers[answer as usize] += 1;
            // No table with rates, and rates no prepared table.
            compare_plain(&file, &table, length_of(rows))?;
            compare_prepared(&file, &sums, length_of(rows))?;
            n += 3;
        }
    }
    had_often(&answers, &[0, RATE_TABLE, CELL, RATE])?;
    Ok(n)
}

fn full(_: &mut Rng) -> Outcome {
    let rates = flat_rates(1_000_000, 0);
    let claims = vec![closed_claim("2011-02-10", "2011-03-10", LIMIT); MOST_CLAIMS as usize];
    let mut file = claim_file(STUDY_WINDOW, &claims, None);
    let most = MOST_CLAIMS as i64;
    // February to March 9 at duration 4, and a day at 5, where the limit is reached.
    let rows = [[30 * most, 0, 0, 0, 0, 0, 30_000_000 * most, 0], [most, 0, 0, 0, 0, most, 1_000_000 * most, 0]];
    let check = |file: &[u8], head: [i64; 4]| {
        let numbers = compare_durations(file, &rates, 6)?;
        let wanted = [&head[..], &[0; 24], &rows[0], &rows[1], &[0; 8]].concat();
        same(numbers, wanted, || format!("{} blocks of one claim: {}", file.len() / BLOCK_LENGTH, claims[0]))
    };
    check(&file, [0, 0, 0, most])?;
    let mut block = [0; BLOCK_LENGTH];
    let next = (file.len() / BLOCK_LENGTH) as u32;
    write_block(next, &claims[..1], &mut block).unwrap();
    file.extend(block);
    check(&file, [FULL as i64, next as i64, 1, most])?;
    Ok(2)
}
