//! Benefits: every number in a record, the place of refusal 16 among the checks, and the weighted set, which is each claim's share times its
//! benefit.

use crate::faults::{Faulty, FAULTS};
use crate::inputs::{file_of, sound_claims, sound_study, STUDY_WINDOW};
use crate::one_input::{
    compare_add, compare_file_study, compare_listing, compare_open, compare_read_block, compare_write_block, had_often, same, Answer,
    BENEFIT, DATE, FULL, LONG_LIST, SEQUENCE, SHORT_ELIMINATION, STATUS, WINDOW,
};
use crate::{test, Outcome, Test};
use second::block::{claim_record, BLOCK_LENGTH, CLAIM_LENGTH, RECORDS_LENGTH};
use second::claim::{Claim, MOST_BENEFIT};
use second::generate::{claim_file, sound_claim, sound_rates, sound_window};
use second::rng::Rng;
use second::study::{MOST_CLAIMS, STUDY_LENGTH, SUMS_AT, WEIGHTED_AT};

pub const TESTS: &[Test] = &[
    test("benefits: every number in a record and a block", 82, every_number),
    test("benefits: every number listed and added", 83, listed_and_added),
    test("benefits: the order of the checks", 84, check_order),
    test("benefits: each share times its benefit", 85, shares),
    test("benefits: in claim files, and files without them", 86, files),
    test("benefits: too high in the middle of a file", 87, too_high),
];

/// What a claim of a benefit counts in the weighted set.
fn weight(benefit: u8) -> i64 {
    if benefit == 0 {
        1
    } else {
        benefit as i64
    }
}

/// The sums by count, and the weighted ones.
fn sets(study: &[i64]) -> (&[i64], &[i64]) {
    (&study[SUMS_AT..WEIGHTED_AT], &study[WEIGHTED_AT..STUDY_LENGTH])
}

/// The weighted set is the one by count, times a weight.
fn weighs(study: &[i64], weight: i64, input: impl FnOnce() -> String) -> Result<(), String> {
    let (counted, weighted) = sets(study);
    let wanted: Vec<i64> = counted.iter().map(|number| number * weight).collect();
    same(weighted, &wanted, input)
}

/// Written into a block and read back, and its byte as document 02 places it.
fn every_number(rng: &mut Rng) -> Outcome {
    let mut n = 0;
    for benefit in 0..=255 {
        for _ in 0..250 {
            let claim = Claim { benefit, ..sound_claim(rng) };
            let (record, number) = (claim_record(&claim), rng.range(1, 65_535) as u32);
            same((record[24], &record[25..]), (benefit, &[0; 7][..]), || claim.to_string())?;
            let (_, block) = compare_write_block(number, &record, BLOCK_LENGTH)?;
            let (count, records) = compare_read_block(&block, number, RECORDS_LENGTH)?;
            same((count, &records[..CLAIM_LENGTH]), (1, &record[..]), || claim.to_string())?;
            n += 2;
        }
    }
    Ok(n)
}

/// The listing and the sums by count are those of the claim without a benefit.
fn listed_and_added(rng: &mut Rng) -> Outcome {
    let mut n = 0;
    for benefit in 0..=255 {
        for _ in 0..60 {
            let rates = sound_rates(rng, 1);
            let without = Claim { cell: 0, benefit: 0, ..sound_claim(rng) };
            let claim = Claim { benefit, ..without };
            let (first, last) = sound_window(rng, &claim);
            let refusal = if benefit > MOST_BENEFIT { BENEFIT } else { 0 };
            let input = || format!("{claim} in {first} to {last}");

            let (listed, list) = compare_listing(first, last, &claim, LONG_LIST)?;
            let (_, same_list) = compare_listing(first, last, &without, LONG_LIST)?;
            same((listed.refusal(), refusal != 0 || list == same_list), (refusal, true), input)?;

            let (_, opened) = compare_open(first, last, STUDY_LENGTH)?;
            let (mut study, mut study_without) = (opened.clone(), opened);
            same(compare_add(&mut study, &claim_record(&claim), &rates)?, refusal, input)?;
            same(compare_add(&mut study_without, &claim_record(&without), &rates)?, 0, input)?;
            weighs(&study_without, 1, input)?;
            weighs(&study, weight(benefit), input)?;
            if refusal == 0 {
                same(&study[..WEIGHTED_AT], &study_without[..WEIGHTED_AT], input)?;
            }
            n += 4;
        }
    }
    Ok(n)
}

/// Some of the faults at once; the first one counts.
fn check_order(rng: &mut Rng) -> Outcome {
    let (n, mut answers) = (60_000, [0; 256]);
    for _ in 0..n {
        let faulty = Faulty::new(rng);
        let Faulty { claim, rates, .. } = &faulty;
        let (first, last) = faulty.window();
        let (listed, _) = compare_listing(first, last, claim, LONG_LIST)?;
        same(listed.refusal(), faulty.first_of(&FAULTS[..6]), || faulty.to_string())?;
        answers[listed.refusal() as usize] += 1;

        let mut study = faulty.study(if faulty.has(FULL) { MOST_CLAIMS } else { 0 });
        same(compare_add(&mut study, &claim_record(claim), rates)?, faulty.first_of(&FAULTS), || faulty.to_string())?;

        let numbers = compare_file_study(&claim_file(STUDY_WINDOW, &[*claim], None), rates)?;
        same(numbers[0], faulty.first_of(&FAULTS[1..9]) as i64, || faulty.to_string())?;
    }
    had_often(&answers, &[0, WINDOW, DATE, STATUS, SEQUENCE, BENEFIT, SHORT_ELIMINATION])?;
    Ok(3 * n)
}

/// What one addition makes of both sets.
fn shares(rng: &mut Rng) -> Outcome {
    let mut n = 0;
    for _ in 0..3_000 {
        let rates = sound_rates(rng, 4);
        let about = sound_claim(rng);
        let (first, last) = sound_window(rng, &about);
        let (_, mut study) = compare_open(first, last, STUDY_LENGTH)?;
        for _ in 0..12 {
            let claim = if rng.one_in(2) { sound_claim(rng) } else { Claim { benefit: rng.range(0, 200) as u8, ..about } };
            let before = study.clone();
            same(compare_add(&mut study, &claim_record(&claim), &rates)?, 0, || claim.to_string())?;
            let share: Vec<i64> = study.iter().zip(&before).map(|(after, before)| after - before).collect();
            weighs(&share, weight(claim.benefit), || format!("the share of {claim} in {first} to {last}"))?;
            n += 1;
        }
    }
    Ok(n)
}

/// Files with benefits, with one benefit in all claims, and without: the sums by count are the same.
fn files(rng: &mut Rng) -> Outcome {
    let n = 3_000;
    for _ in 0..n {
        let (window, claims, rates) = sound_study(rng, 40);
        let one = rng.range(0, MOST_BENEFIT as i64) as u8;
        let with = |benefit: u8| -> Vec<Claim> { claims.iter().map(|claim| Claim { benefit, ..*claim }).collect() };
        let input = || format!("{} claims in {} to {}, all with the benefit {one} as first", claims.len(), window.0, window.1);
        let any = compare_file_study(&file_of(rng, window, &claims), &rates)?;
        for benefit in [0, one] {
            let run = compare_file_study(&file_of(rng, window, &with(benefit)), &rates)?;
            same(&run[..3 + WEIGHTED_AT], &any[..3 + WEIGHTED_AT], input)?;
            weighs(&run[3..], weight(benefit), input)?;
        }
    }
    Ok(3 * n)
}

/// The claims before it are in, the others not.
fn too_high(rng: &mut Rng) -> Outcome {
    let n = 6_000;
    for _ in 0..n {
        let rates = sound_rates(rng, 2);
        let count = rng.range(1, 40) as usize;
        let mut claims = sound_claims(rng, count, 2);
        let window = sound_window(rng, &claims[0]);
        let place = rng.below(count as u64) as usize;
        let before = compare_file_study(&claim_file(window, &claims[..place], None), &rates)?;
        claims[place].benefit = rng.pick(&[201, 202, 254, 255]);
        let numbers = compare_file_study(&claim_file(window, &claims, None), &rates)?;
        let refused = [BENEFIT as i64, place as i64 / 15 + 1, place as i64 % 15 + 1];
        same((&numbers[..3], &numbers[3..]), (&refused[..], &before[3..]), || format!("{} at place {place}", claims[place]))?;
    }
    Ok(2 * n)
}
