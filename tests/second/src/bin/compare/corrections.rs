//! Files with corrections: many and few repeats of a claim number, in a block and across blocks, held to the run over the struck file; and
//! what is checked before any claim.

use crate::file_runs::first_run;
use crate::inputs::{closed_claim, file_of, flat_rates, sound_claims, STUDY_WINDOW};
use crate::one_input::{
    compare_corrected_run, compare_plain_run, had_often, hex, same, BLOCK, RATE_TABLE, RECORDS, STATUS, WINDOW, WRONG_FORM,
};
use crate::windows::parts;
use crate::{test, Outcome, Test};
use second::block::{write_block, BLOCK_LENGTH};
use second::calendar::Date;
use second::claim::{Claim, RECOVERY};
use second::ffi;
use second::generate::{claim_file, damage_claim, damage_file, damage_rates, sound_rates, sound_window, wild_date};
use second::rng::Rng;
use second::run::{run_corrected_file, MOST_RECORDS, RUN_LENGTH};
use second::study::Study;
use std::collections::HashSet;

pub const TESTS: &[Test] = &[
    test("corrections: against the run over the struck file", 122, struck_file),
    test("corrections: one claim number, its records sound and not", 123, one_number),
    test("corrections: files without corrections", 124, without),
    test("corrections: damaged files, claims, rates and windows", 125, damaged),
    test("corrections: damaged blocks behind bad windows and refused claims", 126, damaged_behind),
    test("corrections: the parts of a window total the whole", 127, in_parts),
    test("corrections: about 60,000 records", 128, about_60_000),
    test("corrections: every length of a short file", 129, every_length),
    test("corrections: block numbers to 65,535 and past it", 0, all_block_numbers),
    test("corrections: lists too short for the study", 130, too_short),
];

/// Claim numbers to draw from: one, a few or many, far apart and with the same low or high bits.
fn claim_number(rng: &mut Rng, kind: u64) -> u32 {
    let few = rng.below(5) as u32;
    match kind {
        0 => u32::MAX,
        1 => few,
        2 => few << 16,
        3 => rng.pick(&[0, 1, u32::MAX, u32::MAX - 1, 1 << 31]),
        4 => rng.below(40) as u32,
        5 => rng.below(40) as u32 * 0x0101_0101,
        6 => rng.below(1_000) as u32,
        _ => rng.bits() as u32,
    }
}

/// Sound claims of the table's cells with repeated numbers.
pub fn repeating_claims(rng: &mut Rng, count: usize, cells: usize) -> Vec<Claim> {
    let kind = rng.below(8);
    let mut claims = sound_claims(rng, count, cells);
    claims.iter_mut().for_each(|claim| claim.number = claim_number(rng, kind));
    claims
}

/// Damages a claim, but not its number.
pub fn damage_fields(rng: &mut Rng, claim: &mut Claim) {
    let number = claim.number;
    damage_claim(rng, claim);
    claim.number = number;
}

/// The places, in the list, of the claims that no later one corrects.
fn kept(claims: &[Claim]) -> Vec<usize> {
    let mut seen = HashSet::new();
    let mut kept: Vec<usize> = (0..claims.len()).rev().filter(|&i| seen.insert(claims[i].number)).collect();
    kept.reverse();
    kept
}

/// The block and the place in it of each claim of a file.
fn places(file: &[u8]) -> Vec<[i64; 2]> {
    let blocks = (1..).zip(file.chunks(BLOCK_LENGTH).skip(1));
    blocks.flat_map(|(number, block)| (1..=block[2] as i64).map(move |place| [number, place])).collect()
}

/// Compares the corrected run, and holds the first one's to its own run over the file from which the earlier records were struck.
fn compare_struck(rng: &mut Rng, window: (Date, Date), claims: &[Claim], rates: &[u32]) -> Result<[i64; RUN_LENGTH], String> {
    let file = file_of(rng, window, claims);
    let run = compare_corrected_run(&file, rates)?;
    let kept = kept(claims);
    let struck: Vec<Claim> = kept.iter().map(|&i| claims[i]).collect();
    let struck_file = file_of(rng, window, &struck);
    let plain = compare_plain_run(&struck_file, rates)?;
    let input = || format!("corrected as first and struck as second, file\n{}", hex(&file));
    same((run[0], &run[3..]), (plain[0], &plain[3..]), input)?;
    let mut place = [plain[1], plain[2]];
    if let Some(i) = places(&struck_file).iter().position(|&struck| struck == place) {
        place = places(&file)[kept[i]];
    }
    same([run[1], run[2]], place, input)?;
    Ok(run)
}

fn struck_file(rng: &mut Rng) -> Outcome {
    let (n, mut answers) = (30_000, [0; 256]);
    for _ in 0..n {
        let cells = rng.range(1, 3) as usize;
        let mut rates = sound_rates(rng, cells);
        let count = rng.pick(&[1, 2, 6, 16, 40]);
        let mut claims = repeating_claims(rng, count, cells);
        let window = sound_window(rng, &claims[0]);
        let one_in = rng.pick(&[2, 12, 1_000]);
        for claim in &mut claims {
            if rng.one_in(one_in) {
                damage_fields(rng, claim);
            }
        }
        if rng.one_in(20) {
            damage_rates(rng, &mut rates);
        }
        answers[compare_struck(rng, window, &claims, &rates)?[0] as usize] += 1;
    }
    had_often(&answers, &[0, 2, 3, 4, 5, 6, 7, 16])?;
    Ok(2 * n)
}

/// Some records of one number among others, each sound or not: the last one alone decides.
fn one_number(rng: &mut Rng) -> Outcome {
    let (n, mut refused) = (30_000, 0);
    for _ in 0..n {
        let rates = sound_rates(rng, 1);
        let before = rng.below(20) as u32;
        let mut claims: Vec<Claim> =
            (0..).zip(sound_claims(rng, before as usize, 1)).map(|(number, claim)| Claim { number, ..claim }).collect();
        let records = rng.range(1, 4) as usize;
        let mut sound = true;
        for record in sound_claims(rng, records, 1) {
            sound = rng.one_in(2);
            let status = if sound { record.status } else { 2 };
            let at = claims.iter().rposition(|claim| claim.number == u32::MAX).map_or(0, |last| last + 1);
            let at = rng.range(at as i64, claims.len() as i64) as usize;
            claims.insert(at, Claim { number: u32::MAX, status, ..record });
        }
        let window = sound_window(rng, &claims[0]);
        let file = file_of(rng, window, &claims);
        let run = compare_corrected_run(&file, &rates)?;
        let last = claims.iter().rposition(|claim| claim.number == u32::MAX).unwrap();
        // The other claims before it are in, and after it if it is sound.
        let others = claims[..last].iter().filter(|claim| claim.number != u32::MAX).count() as i64;
        let [block, place] = places(&file)[last];
        let paper = if sound { [0, 0, 0, before as i64 + 1] } else { [STATUS as i64, block, place, others] };
        same([run[0], run[1], run[2], run[5]], paper, || format!("{records} records of one number, file\n{}", hex(&file)))?;
        refused += u64::from(!sound);
    }
    same(n / 4 < refused && refused < n * 3 / 4, true, || format!("{refused} refused of {n}"))?;
    Ok(n)
}

/// All numbers different: the run without corrections.
fn without(rng: &mut Rng) -> Outcome {
    let n = 10_000;
    for _ in 0..n {
        let cells = rng.range(1, 3) as usize;
        let rates = sound_rates(rng, cells);
        let count = rng.range(1, 50) as usize;
        let mut claims = sound_claims(rng, count, cells);
        let (start, step) = (rng.bits() as u32, rng.pick(&[1, u32::MAX, 65_536, 0x0100_0001]));
        for (i, claim) in (0..).zip(&mut claims) {
            claim.number = step.wrapping_mul(i).wrapping_add(start);
            if rng.one_in(60) {
                damage_fields(rng, claim);
            }
        }
        let window = sound_window(rng, &claims[0]);
        let file = file_of(rng, window, &claims);
        let plain = compare_plain_run(&file, &rates)?;
        same(compare_corrected_run(&file, &rates)?, plain, || format!("corrected as first and plain as second, file\n{}", hex(&file)))?;
    }
    Ok(2 * n)
}

fn damaged(rng: &mut Rng) -> Outcome {
    let (n, mut answers) = (40_000, [0; 256]);
    for _ in 0..n {
        let mut rates = sound_rates(rng, 2);
        let count = rng.below(50) as usize;
        let mut claims = repeating_claims(rng, count, 2);
        let mut window = sound_window(rng, &claims.first().copied().unwrap_or_default());
        if rng.one_in(6) {
            let wild = wild_date(rng);
            window = rng.pick(&[(window.1, window.0), (wild, window.1), (window.0, wild)]);
        }
        if rng.one_in(4) && count > 0 {
            let place = rng.below(count as u64) as usize;
            damage_fields(rng, &mut claims[place]);
        }
        if rng.one_in(8) {
            damage_rates(rng, &mut rates);
        }
        let mut file = file_of(rng, window, &claims);
        for _ in 0..rng.below(3) {
            if file.len() >= BLOCK_LENGTH {
                damage_file(rng, &mut file);
            }
        }
        answers[compare_corrected_run(&file, &rates)?[0] as usize] += 1;
    }
    had_often(&answers, &[0, WINDOW, 6, BLOCK])?;
    Ok(n)
}

/// The study of 1950-01-01 alone, and that of a window.
fn unopened() -> Vec<i64> {
    Study::unopened().numbers().to_vec()
}

fn opened((first, last): (Date, Date)) -> Vec<i64> {
    Study::open(first, last).unwrap_or(Study::unopened()).numbers().to_vec()
}

/// A block fault anywhere comes before a bad window, and both before the first claim.
fn damaged_behind(rng: &mut Rng) -> Outcome {
    let n = 20_000;
    for i in 0..n {
        let count = rng.range(1, 60) as usize;
        let mut claims = repeating_claims(rng, count, 1);
        let (bad_window, bad_block) = (i % 2 == 0, i % 4 < 2);
        claims[0].status = 9;
        claims[count - 1].status = 9;
        let window = if bad_window { (STUDY_WINDOW.1, STUDY_WINDOW.0) } else { STUDY_WINDOW };
        let mut file = file_of(rng, window, &claims);
        let blocks = file.len() / BLOCK_LENGTH;
        let (mut paper, mut refused_claim) = ([WINDOW as i64, 0, 0], false);
        if bad_block {
            let block = rng.range(1, blocks as i64) as usize;
            paper = [BLOCK as i64, block as i64, 0];
            if block == blocks {
                file.resize(file.len() + rng.range(1, 511) as usize, 0);
            } else {
                file[block * BLOCK_LENGTH + rng.below(BLOCK_LENGTH as u64) as usize] ^= 1 << rng.below(8);
            }
        } else if !bad_window {
            let first = kept(&claims).into_iter().find(|&i| claims[i].status == 9).unwrap();
            let [block, place] = places(&file)[first];
            paper = [STATUS as i64, block, place];
            refused_claim = true;
        }
        let run = compare_corrected_run(&file, &flat_rates(10_000, 5_000))?;
        let input = || format!("file\n{}", hex(&file));
        same(&run[..3], &paper[..], input)?;
        if !refused_claim {
            same(&run[3..], &unopened()[..], input)?;
        }
    }
    Ok(n)
}

fn in_parts(rng: &mut Rng) -> Outcome {
    let mut n = 0;
    for _ in 0..600 {
        let rates = sound_rates(rng, 2);
        let count = rng.range(1, 60) as usize;
        let claims = repeating_claims(rng, count, 2);
        let window = sound_window(rng, &claims[0]);
        let whole = compare_struck(rng, window, &claims, &rates)?;
        let mut total = vec![0; RUN_LENGTH];
        let cuts = rng.below(6);
        for part in parts(rng, window, cuts) {
            let run = compare_struck(rng, part, &claims, &rates)?;
            same((run[0], run[5]), (0, whole[5]), || format!("{count} claims in {} to {}", part.0, part.1))?;
            total.iter_mut().zip(&run).for_each(|(sum, number)| *sum += number);
            n += 1;
        }
        same(&total[6..], &whole[6..], || format!("the sums of the parts of {} to {} and of the whole", window.0, window.1))?;
        n += 1;
    }
    Ok(n)
}

/// Compares the run over a file too long to show, and holds it to what the paper says.
fn check_long(what: &str, file: &[u8], rates: &[u32], paper: [i64; 4], study: Option<&[i64]>) -> Result<(), String> {
    let out = first_run(ffi::corrected_study, file, rates);
    let second = run_corrected_file(file, rates).numbers();
    same(([out[0], out[1], out[2], out[5]], out), (paper, second), || what.into())?;
    same(&out[3..], study.unwrap_or(&out[3..]), || what.into())
}

/// Superseded records count too; 14 comes after 11 and 1, before any claim and whatever the table.
fn about_60_000(rng: &mut Rng) -> Outcome {
    let mut n = 0;
    let rates = flat_rates(1, 2);
    let bad_window = (STUDY_WINDOW.1, STUDY_WINDOW.0);
    for numbers in [1, 2, 30_000, MOST_RECORDS as u32 + 10] {
        // Of the last two, 16 bits would hold few.
        for count in [MOST_RECORDS - 1, MOST_RECORDS, MOST_RECORDS + 1, MOST_RECORDS + 40, 65_537, 65_536 + MOST_RECORDS] {
            let claim = closed_claim("2009-06-11", "2012-04-29", RECOVERY);
            let mut claims: Vec<Claim> = (0..count as u32).map(|i| Claim { number: i % numbers, ..claim }).collect();
            rng.shuffle(&mut claims);
            let taken = kept(&claims).len() as i64;
            let what = format!("{count} records of {numbers} numbers");
            // Blocks filled up, or some empty ones among them.
            let sound = file_of(rng, STUDY_WINDOW, &claims);
            let many = count > MOST_RECORDS;
            let fresh = opened(STUDY_WINDOW);
            let paper = if many { [RECORDS as i64, 0, 0, 0] } else { [0, 0, 0, taken] };
            check_long(&what, &sound, &rates, paper, many.then_some(&fresh))?;
            let [block, place] = places(&sound)[kept(&claims)[0]];
            let without_rates = if many { paper } else { [RATE_TABLE as i64, block, place, 0] };
            check_long(&format!("{what}, no rates"), &sound, &[], without_rates, Some(&fresh))?;

            let bad = claim_file(bad_window, &claims, None);
            check_long(&format!("{what}, a bad window"), &bad, &rates, [WINDOW as i64, 0, 0, 0], Some(&unopened()))?;
            n += 3;
            for (window, mut file) in [("a sound window", sound), ("a bad window", bad)] {
                // A part block at the end, a damaged block there, behind all other records, and one anywhere.
                let last = (file.len() / BLOCK_LENGTH) as i64 - 1;
                let what = format!("{what}, {window}, a damaged block");
                let refused = |block: i64| [BLOCK as i64, block, 0, 0];
                check_long(&what, &file[..file.len() - 1], &rates, refused(last), Some(&unopened()))?;
                for block in [last, rng.range(0, last - 1)] {
                    file[block as usize * BLOCK_LENGTH + rng.below(BLOCK_LENGTH as u64) as usize] ^= 1;
                    check_long(&what, &file, &rates, refused(block), Some(&unopened()))?;
                }
                n += 3;
            }
        }
    }
    Ok(n)
}

fn every_length(rng: &mut Rng) -> Outcome {
    let mut n = 0;
    for window in [STUDY_WINDOW, (STUDY_WINDOW.1, STUDY_WINDOW.0)] {
        let rates = sound_rates(rng, 1);
        let mut file = claim_file(window, &repeating_claims(rng, 17, 1), None);
        file.extend([0; BLOCK_LENGTH]);
        for length in 0..=file.len() {
            let run = compare_corrected_run(&file[..length], &rates)?;
            let whole = length % BLOCK_LENGTH == 0 && (1..=3).contains(&(length / BLOCK_LENGTH));
            if !whole {
                let paper = [BLOCK as i64, (length / BLOCK_LENGTH).min(3) as i64, 0];
                same((&run[..3], &run[3..]), (&paper[..], &unopened()[..]), || format!("{length} bytes of a file"))?;
            }
            n += 1;
        }
    }
    Ok(n)
}

fn all_block_numbers(_: &mut Rng) -> Outcome {
    let mut file = claim_file(STUDY_WINDOW, &[], None);
    let mut block = [0; BLOCK_LENGTH];
    let claim = closed_claim("2009-06-11", "2012-04-29", RECOVERY);
    for number in 1..=65_535 {
        // One claim in the last block, corrected there, and its first record far before.
        let claims: &[Claim] = match number {
            300 => &[claim],
            65_535 => &[claim, claim],
            _ => &[],
        };
        write_block(number, claims, &mut block).unwrap();
        file.extend(block);
    }
    let rates = flat_rates(1, 2);
    check_long("blocks to 65,535", &file, &rates, [0, 0, 0, 1], None)?;
    check_long("blocks to 65,535, no rates", &file, &[], [RATE_TABLE as i64, 65_535, 2, 0], None)?;
    // Where 65,536 is due, a block 0 again, or a part block.
    file.extend_from_within(..BLOCK_LENGTH);
    check_long("a block 0 after block 65,535", &file, &rates, [BLOCK as i64, 65_536, 0, 0], Some(&unopened()))?;
    check_long("a part block after block 65,535", &file[..file.len() - 1], &rates, [BLOCK as i64, 65_536, 0, 0], Some(&unopened()))?;
    Ok(4)
}

/// 255 before anything else, and nothing written.
fn too_short(rng: &mut Rng) -> Outcome {
    let mut n = 0;
    let rates = sound_rates(rng, 1);
    let sound = claim_file(STUDY_WINDOW, &repeating_claims(rng, 20, 1), None);
    let bad_window = claim_file((STUDY_WINDOW.1, STUDY_WINDOW.0), &[], None);
    for length in 0..RUN_LENGTH {
        for file in [&sound[..], &sound[1..], &bad_window, &[]] {
            for rates in [&rates[..], &[]] {
                let mut out = vec![-7; length];
                let answer = ffi::corrected_study(file, rates, &mut out);
                same((answer, out), (WRONG_FORM, vec![-7; length]), || format!("a list of {length}"))?;
                n += 1;
            }
        }
    }
    Ok(n)
}
