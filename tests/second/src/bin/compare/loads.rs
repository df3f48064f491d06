//! Loads that anyone can rebuild: drawn claim by claim, sound, written into blocks and read back, and refused out of their ranges.

use crate::inputs::flat_rates;
use crate::one_input::{
    compare_file_study, compare_listing, compare_load_claim, compare_read_block, compare_write_block, had_often, same, Answer, LOAD,
    LONG_LIST, WRONG_FORM,
};
use crate::{test, Outcome, Test};
use second::block::{read_claim, write_window, BLOCK_LENGTH, CLAIM_LENGTH, MOST_IN_BLOCK, RECORDS_LENGTH};
use second::calendar::{Date, Day};
use second::generate::{sound_claim, sound_window};
use second::rng::Rng;
use second::shared_load::{LARGEST_LOAD, MODULUS};

pub const TESTS: &[Test] = &[
    test("loads: the published draw", 0, published),
    test("loads: whole loads in blocks, read back and studied", 117, whole),
    test("loads: the largest load", 118, largest),
    test("loads: any x, size and number", 119, any_step),
    test("loads: each range at its ends", 120, ranges),
    test("loads: lists that have not the length asked for", 121, wrong_form),
];

/// As long as asked for.
const LENGTHS: [usize; 2] = [1, CLAIM_LENGTH];

/// The five draws that follow x, by document 02's words.
fn draws(x: u32) -> [u64; 5] {
    let mut x = x as u64;
    [0; 5].map(|_| {
        x = 48_271 * x % 2_147_483_647;
        x
    })
}

/// Draws a claim, holds it to document 02's words, and hands back the x reached and the record.
fn drawn(x: u32, size: u32, number: u32, lengths: [usize; 2]) -> Result<(u32, Vec<u8>), String> {
    let (answer, x_out, mut record) = compare_load_claim(x, size, number, lengths)?;
    record.truncate(CLAIM_LENGTH);
    let [disability, elimination_period, status, to_termination, code] = draws(x);
    let claim = read_claim(&record).unwrap_or_default();
    let input = || format!("claim {number} of {size} from x {x}: {claim}");
    let disability = Day((disability % 20_000) as i32);
    let bcd = disability + 15 + (elimination_period % 351) as i32;
    let (termination, code) = match status % 2 {
        1 => ((bcd + (to_termination % 4_000) as i32).date(), 1 + code % 5),
        _ => (Date::MISSING, 0),
    };
    same((answer, x_out[0] as u64), (0, draws(x)[4]), input)?;
    same(
        (claim.disability, claim.bcd, claim.termination, claim.maximum),
        (disability.date(), bcd.date(), termination, Date::MISSING),
        input,
    )?;
    same((claim.number, claim.status as u64, claim.code as u64), (number, status % 2, code), input)?;
    same((claim.cell, claim.benefit, &record[22..]), (0, 0, &[0; 10][..]), input)?;
    Ok((x_out[0], record))
}

/// The generator's figure: from 1 the 10,000th draw is 399,268,537.
fn published(_: &mut Rng) -> Outcome {
    let mut x = 1;
    for number in 1..=2_000 {
        x = drawn(x, 2_000, number, LENGTHS)?.0;
    }
    same(x, 399_268_537, || "the 10,000th draw from 1".into())?;
    Ok(2_000)
}

fn whole(rng: &mut Rng) -> Outcome {
    let mut n = 0;
    let rates = flat_rates(10_000, 5_000);
    for i in 0..400 {
        let any = rng.range(1, MODULUS as i64 - 1) as u32;
        let seed = if i < 4 { [1, 2, MODULUS - 2, MODULUS - 1][i] } else { any };
        let size = rng.range(0, 400) as u32;
        let about = sound_claim(rng);
        let (first, last) = sound_window(rng, &about);
        let mut file = vec![0; BLOCK_LENGTH];
        write_window(first, last, &mut file).unwrap();
        let (mut x, mut records) = (seed, Vec::new());
        for number in 1..=size {
            let (reached, record) = drawn(x, size, number, LENGTHS)?;
            let claim = read_claim(&record).unwrap();
            let (listed, _) = compare_listing(first, last, &claim, LONG_LIST)?;
            same(listed.refusal(), 0, || format!("{claim} in {first} to {last}"))?;
            x = reached;
            records.extend(record);
            n += 1;
        }
        for (number, records) in (1..).zip(records.chunks(MOST_IN_BLOCK * CLAIM_LENGTH)) {
            let (written, block) = compare_write_block(number, records, BLOCK_LENGTH)?;
            let (read, claims) = compare_read_block(&block, number, RECORDS_LENGTH)?;
            let count = (records.len() / CLAIM_LENGTH) as u64;
            same((written, read, &claims[..records.len()]), (0, count, records), || format!("block {number} of the load from {seed}"))?;
            file.extend(block);
        }
        let numbers = compare_file_study(&file, &rates)?;
        same([numbers[0], numbers[5]], [0, size as i64], || format!("the load of {size} claims from {seed}"))?;
    }
    Ok(n)
}

fn largest(rng: &mut Rng) -> Outcome {
    let mut x = rng.range(1, MODULUS as i64 - 1) as u32;
    for number in 1..=LARGEST_LOAD {
        x = drawn(x, LARGEST_LOAD, number, LENGTHS)?.0;
    }
    let (answer, ..) = compare_load_claim(x, LARGEST_LOAD, LARGEST_LOAD + 1, LENGTHS)?;
    same(answer, LOAD, || "a claim more than the largest load has".into())?;
    Ok(LARGEST_LOAD as u64 + 1)
}

/// What document 02 says of x, size and number.
fn refusal(x: u32, size: u32, number: u32) -> u8 {
    let sound = (1..=2_147_483_646).contains(&x) && size <= 500_000 && 1 <= number && number <= size;
    if sound {
        0
    } else {
        LOAD
    }
}

fn any_step(rng: &mut Rng) -> Outcome {
    let (n, mut answers) = (120_000, [0; 256]);
    for _ in 0..n {
        let x = if rng.one_in(8) { rng.bits() as u32 } else { rng.range(1, MODULUS as i64 - 1) as u32 };
        let size = if rng.one_in(8) { rng.bits() as u32 } else { rng.range(0, LARGEST_LOAD as i64) as u32 };
        let number = match rng.below(8) {
            0 => rng.bits() as u32,
            1 => rng.pick(&[0, 1, size, size.saturating_add(1), size.saturating_sub(1)]),
            _ => rng.range(0, size.min(LARGEST_LOAD) as i64) as u32,
        };
        let lengths = [1 + rng.below(3) as usize, CLAIM_LENGTH + rng.below(3) as usize];
        let wanted = refusal(x, size, number);
        if wanted == 0 {
            drawn(x, size, number, lengths)?;
        } else {
            let (answer, ..) = compare_load_claim(x, size, number, lengths)?;
            same(answer, wanted, || format!("claim {number} of {size} from x {x}"))?;
        }
        answers[wanted as usize] += 1;
    }
    had_often(&answers, &[0, LOAD])?;
    Ok(n)
}

fn ranges(rng: &mut Rng) -> Outcome {
    let mut n = 0;
    let any = rng.range(3, MODULUS as i64 - 3) as u32;
    for x in [0, 1, 2, any, MODULUS - 2, MODULUS - 1, MODULUS, MODULUS + 1, 1 << 31, u32::MAX - 1, u32::MAX] {
        for size in [0, 1, 2, 15, 65_535, 65_536, LARGEST_LOAD - 1, LARGEST_LOAD, LARGEST_LOAD + 1, 1 << 31, u32::MAX] {
            for number in
                [0, 1, 2, 15, 65_536, size.wrapping_sub(1), size, size.wrapping_add(1), LARGEST_LOAD, LARGEST_LOAD + 1, 1 << 31, u32::MAX]
            {
                let (answer, ..) = compare_load_claim(x, size, number, LENGTHS)?;
                same(answer, refusal(x, size, number), || format!("claim {number} of {size} from x {x}"))?;
                n += 1;
            }
        }
    }
    Ok(n)
}

/// 255 comes before 20; a longer list is taken and its rest untouched.
fn wrong_form(rng: &mut Rng) -> Outcome {
    let mut n = 0;
    for _ in 0..20 {
        for x_length in [0, 1, 2, 5] {
            for length in (0..=CLAIM_LENGTH + 2).chain([64, 512]) {
                for (x, size, number) in [(rng.range(1, MODULUS as i64 - 1) as u32, 9, 9), (0, 9, 9), (1, LARGEST_LOAD + 1, 1), (1, 0, 0)] {
                    let wrong = x_length < 1 || length < CLAIM_LENGTH;
                    let wanted = if wrong { WRONG_FORM } else { refusal(x, size, number) };
                    let (answer, ..) = compare_load_claim(x, size, number, [x_length, length])?;
                    same(answer, wanted, || format!("claim {number} of {size} from x {x}, lists of {x_length} and {length}"))?;
                    n += 1;
                }
            }
        }
    }
    Ok(n)
}
