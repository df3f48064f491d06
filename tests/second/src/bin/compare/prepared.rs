//! Prepared tables: made of rates sound and not, and the study of a claim file with them, with other tables in their place, and with lists
//! that were never prepared.

use crate::inputs::{any_length, flat_rates, missing_cell, sound_claims};
use crate::one_input::{
    compare_file_study, compare_plain_run, compare_prepare, compare_prepared_run, had_often, same, CELL, FULL, RATE, RATE_TABLE,
};
use crate::{test, Outcome, Test};
use second::calendar::Date;
use second::claim::{Claim, MOST_BENEFIT};
use second::generate::{claim_file, damage_claim, sound_rates, sound_window};
use second::rates::{CELL_LENGTH, DURATIONS, MOST_CELLS};
use second::rng::Rng;
use second::run::RUN_LENGTH;
use second::study::MOST_EXPECTED;

pub const TESTS: &[Test] = &[
    test("preparing: tables of one or two cells, and again", 52, small_tables),
    test("preparing: tables of up to 1,024 cells", 53, large_tables),
    test("preparing: lengths and last numbers", 54, lengths),
    test("preparing: each duration at one and over one", 55, each_duration),
    test("prepared: unsound cells and cells past the table", 56, any_cells),
    test("prepared: one kind of table in the place of the other", 57, other_tables),
    test("prepared: lists never prepared", 58, never_prepared),
    test("prepared: full by the sums of a list never prepared", 59, full_by_sums),
    test("prepared: full by the weighted sums alone", 88, full_by_weighted_sums),
];

/// The numbers of cells and a last one.
pub fn table_of(cells: &[u32], last: u32) -> Vec<u32> {
    [cells, &[last]].concat()
}

/// A place of both kinds, the first and the last often.
fn any_place(rng: &mut Rng) -> usize {
    let any = rng.below(DURATIONS as u64) as usize;
    rng.pick(&[0, DURATIONS - 1, any, any])
}

/// Two rates whose sum is one in millionths, one millionth more, or too much for 32 bits.
fn about_one(rng: &mut Rng) -> (u32, u32) {
    let rate = rng.below(1_000_001) as u32;
    let any = rng.range(1, u32::MAX as i64) as u32;
    match rng.below(6) {
        0 => (rate, 1_000_000 - rate),
        1 => (rate, 1_000_001 - rate),
        2 => rng.pick(&[(1_000_001, 0), (0, 1_000_001), (1_000_000, 1), (1, 1_000_000)]),
        // In 32 bits these would be sound.
        3 => (u32::MAX, 1 + rate),
        4 => (any, any.wrapping_neg().wrapping_add(rate)),
        _ => (u32::MAX, u32::MAX),
    }
}

/// The rates of a cell: none, all one, any that are sound, or any numbers; often with a duration about one.
fn any_cell(rng: &mut Rng) -> Vec<u32> {
    let rate = rng.below(1_000_001) as u32;
    let mut cell = match rng.below(8) {
        0 => flat_rates(0, 0),
        1 => flat_rates(1_000_000, 0),
        2 => flat_rates(0, 1_000_000),
        3 => flat_rates(rate, 1_000_000 - rate),
        4 => (0..CELL_LENGTH).map(|_| any_length(rng) as u32).collect(),
        _ => sound_rates(rng, 1),
    };
    if rng.one_in(2) {
        let i = any_place(rng);
        (cell[i], cell[DURATIONS + i]) = about_one(rng);
    }
    cell
}

fn any_rates(rng: &mut Rng, cells: usize) -> Vec<u32> {
    (0..cells).flat_map(|_| any_cell(rng)).collect()
}

/// Whether a cell was marked as unsound.
fn is_marked(table: &[u32], cell: usize) -> bool {
    table[cell * CELL_LENGTH] == u32::MAX
}

fn small_tables(rng: &mut Rng) -> Outcome {
    let (mut n, mut cells_prepared, mut marked) = (0, 0, 0);
    for _ in 0..100_000 {
        let cells = rng.range(1, 2) as usize;
        let any = rng.bits() as u32;
        let last = if rng.one_in(8) { rng.pick(&[1, 2, u32::MAX, 1 << 31, any]) } else { 0 };
        let (answer, table) = compare_prepare(&table_of(&any_rates(rng, cells), last))?;
        same(answer, if last == 0 { 0 } else { RATE_TABLE }, || format!("a table whose last number is {last}"))?;
        n += 1;
        if answer == 0 {
            // Nothing is prepared twice.
            same(compare_prepare(&table)?.0, RATE_TABLE, || "a prepared table".into())?;
            n += 1;
            cells_prepared += cells;
            marked += (0..cells).filter(|&cell| is_marked(&table, cell)).count();
        }
    }
    same(cells_prepared / 5 < marked && marked < cells_prepared * 4 / 5, true, || format!("{marked} unsound of {cells_prepared} cells"))?;
    Ok(n)
}

fn large_tables(rng: &mut Rng) -> Outcome {
    let n = 600;
    for i in 0..n {
        let cells = match i % 20 {
            0 => MOST_CELLS,
            1 => rng.range(65, 1_023) as usize,
            _ => rng.range(3, 65) as usize,
        };
        let (answer, _) = compare_prepare(&table_of(&any_rates(rng, cells), 0))?;
        same(answer, 0, || format!("a table of {cells} cells"))?;
    }
    Ok(n)
}

fn lengths(rng: &mut Rng) -> Outcome {
    let mut n = 0;
    for cells in [0, 1, 2, 16, 64, 65, MOST_CELLS, MOST_CELLS + 1] {
        for length in (CELL_LENGTH * cells).saturating_sub(1)..=CELL_LENGTH * cells + 3 {
            for last in [0, 1, 2, u32::MAX, rng.bits() as u32] {
                let mut table = vec![rng.below(500_001) as u32; length];
                if let Some(number) = table.last_mut() {
                    *number = last;
                }
                let prepared = length == CELL_LENGTH * cells + 1 && (1..=MOST_CELLS).contains(&cells) && last == 0;
                let (answer, _) = compare_prepare(&table)?;
                same(answer == 0, prepared, || format!("{length} numbers, the last one {last}"))?;
                n += 1;
            }
        }
    }
    // Any length of some cells.
    for _ in 0..2_000 {
        compare_prepare(&vec![0; rng.below(5_000) as usize])?;
        n += 1;
    }
    Ok(n)
}

fn each_duration(rng: &mut Rng) -> Outcome {
    let mut n = 0;
    for i in 0..DURATIONS {
        for cell in 0..2 {
            let mut rates = sound_rates(rng, 2);
            for _ in 0..6 {
                let (recovery, death) = about_one(rng);
                let at = cell * CELL_LENGTH + i;
                (rates[at], rates[at + DURATIONS]) = (recovery, death);
                let (_, table) = compare_prepare(&table_of(&rates, 0))?;
                let unsound = recovery as u64 + death as u64 > 1_000_000;
                same([is_marked(&table, cell), is_marked(&table, 1 - cell)], [unsound, false], || {
                    format!("rates {recovery} and {death} at place {i} of cell {cell}")
                })?;
                n += 1;
            }
        }
    }
    Ok(n)
}

/// A file of some claims, now and then of a cell that a table of `cells` cells has not.
pub fn any_file(rng: &mut Rng, cells: usize) -> Vec<u8> {
    let count = rng.range(1, 4) as usize;
    let mut claims = sound_claims(rng, count, cells);
    let window = sound_window(rng, &claims[0]);
    if rng.one_in(8) {
        claims[count - 1].cell = missing_cell(rng, cells) as u16;
    }
    if rng.one_in(16) {
        damage_claim(rng, &mut claims[count - 1]);
    }
    claim_file(window, &claims, None)
}

fn any_cells(rng: &mut Rng) -> Outcome {
    let (mut n, mut answers) = (0, [0; 256]);
    for _ in 0..12_000 {
        let cells = rng.range(1, 3) as usize;
        let rates = any_rates(rng, cells);
        for _ in 0..9 {
            let numbers = compare_file_study(&any_file(rng, cells), &rates)?;
            answers[numbers[0] as usize] += 1;
            n += 1;
        }
    }
    had_often(&answers, &[0, CELL, RATE])?;
    Ok(n)
}

fn other_tables(rng: &mut Rng) -> Outcome {
    let mut n = 0;
    for i in 0..3_000 {
        let cells = if i % 100 == 0 { MOST_CELLS } else { rng.range(1, 2) as usize };
        let rates = sound_rates(rng, cells);
        let (_, table) = compare_prepare(&table_of(&rates, 0))?;
        let claims = sound_claims(rng, 3, cells);
        let window = sound_window(rng, &claims[0]);
        let (file, no_claims) = (claim_file(window, &claims, None), claim_file(window, &[], None));
        let refused = |numbers: [i64; RUN_LENGTH]| [numbers[0], numbers[1], numbers[2], numbers[5]];
        let mut must_refuse = |table: &[u32], prepared: bool| {
            let run = if prepared { compare_prepared_run } else { compare_plain_run };
            let input = || format!("{} numbers, the last one {:?}, as a prepared table: {prepared}", table.len(), table.last());
            same(refused(run(&file, table)?), [RATE_TABLE as i64, 1, 1, 0], input)?;
            // Without claims no table is asked for.
            same(refused(run(&no_claims, table)?), [0; 4], input)?;
            n += 2;
            Ok::<(), String>(())
        };
        // Plain ones, also with the last number of a prepared one.
        must_refuse(&rates, true)?;
        must_refuse(&table_of(&rates, 0), true)?;
        must_refuse(&table_of(&rates[1..], 1), true)?;
        // Prepared ones as plain.
        must_refuse(&table, false)?;
        // Other last numbers and lengths.
        let (sums, any) = (&table[..rates.len()], rng.bits() as u32 | 2);
        for last in [0, 2, 257, u32::MAX, any] {
            must_refuse(&table_of(sums, last), true)?;
        }
        for sums in [&sums[1..], &sums[DURATIONS..], &table_of(sums, 1), &table_of(&table, 1), &[], &[0]] {
            must_refuse(&table_of(sums, 1), true)?;
        }
        must_refuse(&[], true)?;
        if i % 100 == 0 {
            must_refuse(&table_of(&vec![0; (MOST_CELLS + 1) * CELL_LENGTH], 1), true)?;
        }
        // Sums are rates as well, mostly unsound ones.
        compare_plain_run(&file, sums)?;
        n += 1;
    }
    Ok(n)
}

/// Numbers of a cell that no preparing makes, up and down and of any size; the first one about what check 8 asks of it.
pub fn any_sums(rng: &mut Rng) -> Vec<u32> {
    let step = rng.pick(&[1, 1_000, 1_000_000, 1 << 31]);
    let walked = rng.one_in(2);
    let mut number = rng.bits() as u32;
    let mut cell: Vec<u32> = (0..CELL_LENGTH)
        .map(|_| {
            number = if walked { number.wrapping_add(rng.range(-step, step) as u32) } else { any_length(rng) as u32 };
            number
        })
        .collect();
    let any = rng.below(1_000_001) as u32;
    cell[0] = rng.pick(&[0, 1, 999_999, 1_000_000, any, any, any, 1_000_001, u32::MAX - 1, u32::MAX]);
    cell
}

fn never_prepared(rng: &mut Rng) -> Outcome {
    let (mut n, mut answers) = (0, [0; 256]);
    for _ in 0..8_000 {
        let cells = rng.range(1, 2) as usize;
        let sums: Vec<u32> = (0..cells).flat_map(|_| any_sums(rng)).collect();
        let last = if rng.one_in(16) { rng.pick(&[0, 2, u32::MAX]) } else { 1 };
        let table = table_of(&sums, last);
        for _ in 0..6 {
            let numbers = compare_prepared_run(&any_file(rng, cells), &table)?;
            answers[numbers[0] as usize] += 1;
            n += 1;
        }
    }
    had_often(&answers, &[0, RATE_TABLE, CELL, RATE])?;
    Ok(n)
}

/// The rates of these lists are so far from nothing that some hundred claims take a sum beyond the bounds of check 9.
fn full_by_sums(rng: &mut Rng) -> Outcome {
    let n = 80;
    let calendar = (Date::new(1950, 1, 1), Date::new(2099, 12, 31));
    let longest = Claim { disability: Date::new(1950, 1, 1), bcd: Date::new(1950, 2, 1), ..Claim::default() };
    let claims: Vec<Claim> = (0..400).map(|number| Claim { number, ..longest }).collect();
    let file = claim_file(calendar, &claims, None);
    for i in 0..n {
        let mut cell = any_sums(rng);
        cell[0] = rng.below(1_000_001) as u32;
        // The last difference of either kind, up or down, is the rate of all durations past 480.
        let last = if i % 2 == 0 { DURATIONS - 1 } else { CELL_LENGTH - 1 };
        let (low, high) = (rng.below(1 << 28) as u32, u32::MAX - rng.below(1 << 28) as u32);
        (cell[last - 1], cell[last]) = if i % 4 < 2 { (low, high) } else { (high, low) };
        let numbers = compare_prepared_run(&file, &table_of(&cell, 1))?;
        same(numbers[0], FULL as i64, || format!("{} claims taken", numbers[5]))?;
    }
    Ok(n)
}

/// Claims of two cells by turns, one with rates far above nothing and one as far below: their sums by count stay small, and the weighted
/// ones go beyond their bounds where one cell's claims weigh more.
fn full_by_weighted_sums(rng: &mut Rng) -> Outcome {
    let n = 80;
    let calendar = (Date::new(1950, 1, 1), Date::new(2099, 12, 31));
    let longest = Claim { disability: Date::new(1950, 1, 1), bcd: Date::new(1950, 2, 1), ..Claim::default() };
    for i in 0..n {
        let last = if i % 2 == 0 { DURATIONS - 1 } else { CELL_LENGTH - 1 };
        let mut cells = [0; 2].map(|_| flat_rates(0, 0));
        let high = u32::MAX - rng.below(1 << 28) as u32;
        let heavy = rng.below(2) as usize;
        (cells[0][last], cells[1][last - 1]) = (high, high);
        let claims: Vec<Claim> = (0..800)
            .map(|number| Claim {
                number,
                cell: number as u16 % 2,
                benefit: if number as usize % 2 == heavy { MOST_BENEFIT - rng.below(3) as u8 } else { rng.below(3) as u8 },
                ..longest
            })
            .collect();
        let numbers = compare_prepared_run(&claim_file(calendar, &claims, None), &table_of(&cells.concat(), 1))?;
        let by_count = &numbers[6..46];
        let within = by_count.chunks(8).all(|group| group[6].abs() <= MOST_EXPECTED && group[7].abs() <= MOST_EXPECTED);
        same((numbers[0], within), (FULL as i64, true), || format!("{} claims taken, sums {by_count:?}", numbers[5]))?;
    }
    Ok(n)
}
