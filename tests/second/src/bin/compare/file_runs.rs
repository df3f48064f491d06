//! The study over whole claim files, sound and damaged, short and long.

use crate::inputs::{closed_claim, date, file_of, flat_rates, sound_claims, sound_study, STUDY_WINDOW};
use crate::one_input::{compare_file_study, compare_prepare, hex, same, FirstRun};
use crate::{test, Outcome, Test};
use second::block::{write_block, BLOCK_LENGTH};
use second::claim::{Claim, LIMIT, MOST_BENEFIT};
use second::ffi;
use second::generate::{any_cell, claim_file, damage_claim, damage_file, damage_rates, sound_claim, sound_rates, sound_window, wild_date};
use second::rng::Rng;
use second::run::{run_file, RUN_LENGTH};

pub const TESTS: &[Test] = &[
    test("study: one claim", 6, one_claim),
    test("study: no claims to some dozens of blocks", 7, sound),
    test("study: long files", 8, long),
    test("study: damaged claims in the middle", 9, damaged_claim),
    test("study: damaged files", 10, damaged_file),
    test("study: every length of a short file", 11, every_length),
    test("study: rate tables of wrong length, wild rates, missing cells", 12, damaged_rates),
    test("study: the order of the checks", 14, check_order),
    test("study: full at 500,000 claims", 0, full),
    test("study: block numbers to 65,535 and past it", 0, all_block_numbers),
];

fn one_claim(rng: &mut Rng) -> Outcome {
    let n = 8_000;
    for _ in 0..n {
        let cells = rng.range(1, 2) as usize;
        let rates = sound_rates(rng, cells);
        let claim = sound_claims(rng, 1, cells)[0];
        let window = sound_window(rng, &claim);
        compare_file_study(&claim_file(window, &[claim], None), &rates)?;
    }
    Ok(n)
}

fn sound(rng: &mut Rng) -> Outcome {
    let n = 1_000;
    for i in 0..n {
        let most = if i % 4 == 0 { 500 } else { 60 };
        let (window, claims, rates) = sound_study(rng, most);
        let file = file_of(rng, window, &claims);
        let numbers = compare_file_study(&file, &rates)?;
        let taken = [0, 0, 0, claims.len() as i64];
        same([numbers[0], numbers[1], numbers[2], numbers[5]], taken, || format!("file\n{}", hex(&file)))?;
    }
    Ok(n)
}

fn long(rng: &mut Rng) -> Outcome {
    let n = 3;
    for _ in 0..n {
        let rates = sound_rates(rng, 16);
        let claims = sound_claims(rng, 20_000, 16);
        let window = sound_window(rng, &claims[0]);
        compare_file_study(&claim_file(window, &claims, None), &rates)?;
    }
    Ok(n)
}

fn damaged_claim(rng: &mut Rng) -> Outcome {
    let n = 6_000;
    for _ in 0..n {
        let (window, mut claims, mut rates) = sound_study(rng, 60);
        for _ in 0..rng.range(1, 2) {
            if !claims.is_empty() {
                let place = rng.below(claims.len() as u64) as usize;
                damage_claim(rng, &mut claims[place]);
            }
        }
        if rng.one_in(6) {
            damage_rates(rng, &mut rates);
        }
        let file = file_of(rng, window, &claims);
        compare_file_study(&file, &rates)?;
    }
    Ok(n)
}

fn damaged_file(rng: &mut Rng) -> Outcome {
    let n = 10_000;
    for _ in 0..n {
        let (window, claims, rates) = sound_study(rng, 75);
        let mut file = file_of(rng, window, &claims);
        for _ in 0..rng.range(1, 2) {
            if file.len() >= BLOCK_LENGTH {
                damage_file(rng, &mut file);
            }
        }
        compare_file_study(&file, &rates)?;
    }
    Ok(n)
}

fn every_length(rng: &mut Rng) -> Outcome {
    let rates = sound_rates(rng, 1);
    let claims = sound_claims(rng, 17, 1);
    let mut file = claim_file(STUDY_WINDOW, &claims, None);
    file.extend([0; BLOCK_LENGTH]);
    for length in 0..=file.len() {
        compare_file_study(&file[..length], &rates)?;
    }
    Ok(file.len() as u64 + 1)
}

fn damaged_rates(rng: &mut Rng) -> Outcome {
    let n = 3_000;
    for _ in 0..n {
        let cells = rng.range(1, 4) as usize;
        let mut rates = sound_rates(rng, cells);
        damage_rates(rng, &mut rates);
        let count = rng.range(1, 30) as usize;
        let cells_used = cells + usize::from(rng.one_in(4));
        let claims = sound_claims(rng, count, cells_used);
        let window = sound_window(rng, &claims[0]);
        let file = file_of(rng, window, &claims);
        compare_file_study(&file, &rates)?;
    }
    Ok(n)
}

/// Claims with several faults at once, so that the first check of the table decides.
fn check_order(rng: &mut Rng) -> Outcome {
    let n = 6_000;
    for _ in 0..n {
        let mut rates = sound_rates(rng, 1);
        if rng.one_in(2) {
            damage_rates(rng, &mut rates);
        }
        let mut claim = sound_claim(rng);
        claim.cell = any_cell(rng, 3);
        for _ in 0..rng.below(4) {
            damage_claim(rng, &mut claim);
        }
        let window = if rng.one_in(4) { (wild_date(rng), wild_date(rng)) } else { STUDY_WINDOW };
        let mut file = claim_file(window, &[claim], None);
        if rng.one_in(4) {
            damage_file(rng, &mut file);
        }
        compare_file_study(&file, &rates)?;
    }
    Ok(n)
}

/// The first implementation's numbers alone, of a file too long to show.
pub fn first_run(run: FirstRun, file: &[u8], table: &[u32]) -> [i64; RUN_LENGTH] {
    let mut out = [0; RUN_LENGTH];
    run(file, table, &mut out);
    out
}

fn full(_: &mut Rng) -> Outcome {
    let window = (date("2011-01-01"), date("2011-03-31"));
    let rates = flat_rates(1_000_000, 0);
    // The weighted closing sum of their group reaches its bound as well.
    let claims = vec![Claim { benefit: MOST_BENEFIT, ..closed_claim("2011-02-10", "2011-03-10", LIMIT) }; 500_000];
    let mut file = claim_file(window, &claims, None);
    let table = compare_prepare(&[&rates[..], &[0]].concat())?.1;
    let check = |file: &[u8], paper: [i64; 4]| {
        let second = run_file(file, &rates).numbers();
        for out in [first_run(ffi::file_study, file, &rates), first_run(ffi::prepared_file_study, file, &table)] {
            let figures = [out[0], out[1], out[2], out[5]];
            same((figures, out), (paper, second), || {
                format!("window 2011-01-01 to 2011-03-31, {} blocks of one claim: {}", file.len() / BLOCK_LENGTH, claims[0])
            })?;
        }
        Ok::<(), String>(())
    };
    check(&file, [0, 0, 0, 500_000])?;
    // Three more in a block of their own: refused at the first.
    let mut block = [0; BLOCK_LENGTH];
    let next = (file.len() / BLOCK_LENGTH) as u32;
    write_block(next, &claims[..3], &mut block).unwrap();
    file.extend(block);
    check(&file, [9, next as i64, 1, 500_000])?;
    Ok(2)
}

fn all_block_numbers(_: &mut Rng) -> Outcome {
    let mut file = claim_file(STUDY_WINDOW, &[], None);
    let mut block = [0; BLOCK_LENGTH];
    for number in 1..=65_535 {
        write_block(number, &[], &mut block).unwrap();
        file.extend(block);
    }
    let check = |file: &[u8], paper: [i64; 3]| {
        let out = first_run(ffi::file_study, file, &[]);
        same(first_run(ffi::prepared_file_study, file, &[]), out, || "with a prepared table as first".into())?;
        same(([out[0], out[1], out[2]], out), (paper, run_file(file, &[]).numbers()), || {
            format!("{} blocks and {} bytes without claims", file.len() / BLOCK_LENGTH, file.len() % BLOCK_LENGTH)
        })
    };
    check(&file, [0, 0, 0])?;
    // Where 65,536 is due, a block 0 again, a part block, or an empty block that carries the number's low bytes.
    let length = file.len();
    file.extend_from_within(..BLOCK_LENGTH);
    check(&file, [11, 65_536, 0])?;
    check(&file[..file.len() - 1], [11, 65_536, 0])?;
    file[length..].fill(0);
    check(&file, [11, 65_536, 0])?;
    Ok(4)
}
