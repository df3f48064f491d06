//! Codes of closed claims: a closing at the change of definition is a recovery in category, listing and study, and every other number is
//! refused.

use crate::inputs::{closed_claim, day, file_of, STUDY_WINDOW};
use crate::one_input::{compare_add, compare_file_study, compare_listing, compare_open, same, Answer, LONG_LIST, STATUS};
use crate::{test, Outcome, Test};
use second::block::claim_record;
use second::calendar::Day;
use second::claim::{Claim, CHANGE_OF_DEFINITION, CLOSED, MAX_OUT, OPEN, RECOVERY};
use second::generate::{sound_claim, sound_rates, sound_window};
use second::rng::Rng;
use second::run::RUN_LENGTH;
use second::study::STUDY_LENGTH;

pub const TESTS: &[Test] = &[
    test("change of definition: listed as a recovery", 63, listed),
    test("change of definition: every day about the maximum date", 64, about_maximum),
    test("change of definition: added as a recovery", 65, added),
    test("change of definition: in claim files", 66, in_files),
    test("codes: every number, open and closed", 67, every_code),
];

/// A sound claim closed at the change of definition, and the same closed by recovery.
fn two_claims(rng: &mut Rng) -> [Claim; 2] {
    let mut claim = sound_claim(rng);
    while claim.status != CLOSED {
        claim = sound_claim(rng);
    }
    [CHANGE_OF_DEFINITION, RECOVERY].map(|code| Claim { code, cell: 0, ..claim })
}

/// The listings of both, compared and the same for the first implementation.
fn listed_alike(rng: &mut Rng, claims: &[Claim; 2]) -> Result<Vec<i32>, String> {
    let (first, last) = sound_window(rng, &claims[0]);
    let (count, list) = compare_listing(first, last, &claims[0], LONG_LIST)?;
    let recovery = compare_listing(first, last, &claims[1], LONG_LIST)?;
    same((count, &list), (recovery.0, &recovery.1), || format!("{} and as a recovery, in {first} to {last}", claims[0]))?;
    Ok(list[..6 * count as usize].to_vec())
}

fn listed(rng: &mut Rng) -> Outcome {
    let n = 30_000;
    for _ in 0..n {
        let claims = two_claims(rng);
        listed_alike(rng, &claims)?;
    }
    Ok(2 * n)
}

fn about_maximum(rng: &mut Rng) -> Outcome {
    let mut n = 0;
    for _ in 0..60 {
        let [claim, _] = two_claims(rng);
        let t = claim.termination.day_number().unwrap();
        for days in -60..=60 {
            let maximum = t + days;
            if maximum.is_date() {
                let claim = Claim { maximum: maximum.date(), ..claim };
                let rows = listed_alike(rng, &[claim, Claim { code: RECOVERY, ..claim }])?;
                let category = if days.abs() <= 45 { MAX_OUT } else { RECOVERY };
                let closing = rows.chunks(6).find(|row| row[5] != 0).map_or(category as i32, |row| row[5]);
                same(closing, category as i32, || format!("{claim}, the maximum date {days} days after"))?;
                n += 2;
            }
        }
    }
    Ok(n)
}

/// Studies of claims closed at the change of definition, and of the same as recoveries.
fn added(rng: &mut Rng) -> Outcome {
    let mut n = 0;
    for _ in 0..1_500 {
        let rates = sound_rates(rng, 1);
        let about = two_claims(rng);
        let (first, last) = sound_window(rng, &about[0]);
        let (_, mut study) = compare_open(first, last, STUDY_LENGTH)?;
        let mut recoveries = study.clone();
        for _ in 0..15 {
            let claims = if rng.one_in(3) { about } else { two_claims(rng) };
            for (study, claim) in [(&mut study, claims[0]), (&mut recoveries, claims[1])] {
                same(compare_add(study, &claim_record(&claim), &rates)?, 0, || claim.to_string())?;
                n += 1;
            }
            same(&study, &recoveries, || format!("{} added, and as a recovery", claims[0]))?;
        }
    }
    Ok(n)
}

fn in_files(rng: &mut Rng) -> Outcome {
    let n = 2_000;
    for _ in 0..n {
        let rates = sound_rates(rng, 1);
        let count = rng.range(1, 40) as usize;
        let claims: Vec<[Claim; 2]> = (0..count).map(|_| two_claims(rng)).collect();
        let window = sound_window(rng, &claims[0][0]);
        let mut runs = [[0; RUN_LENGTH]; 2];
        for (i, run) in runs.iter_mut().enumerate() {
            let claims: Vec<Claim> = claims.iter().map(|claims| claims[i]).collect();
            *run = compare_file_study(&file_of(rng, window, &claims), &rates)?;
        }
        same(runs[0], runs[1], || format!("{count} claims, and as recoveries, in {} to {}", window.0, window.1))?;
    }
    Ok(2 * n)
}

fn every_code(rng: &mut Rng) -> Outcome {
    let mut n = 0;
    let example = closed_claim("2009-06-11", "2012-04-29", RECOVERY);
    for code in 0..=255 {
        for _ in 0..20 {
            let [mut claim, _] = two_claims(rng);
            if rng.one_in(4) {
                claim = Claim { maximum: Day(day("2012-04-29").0 + rng.range(-50, 50) as i32).date(), ..example };
            }
            let closed = Claim { code, status: CLOSED, ..claim };
            let open = Claim { code, status: OPEN, termination: Default::default(), ..claim };
            for (claim, sound) in [(closed, (1..=6).contains(&code)), (open, code == 0), (Claim { status: 2, ..closed }, false)] {
                let (answer, _) = compare_listing(STUDY_WINDOW.0, STUDY_WINDOW.1, &claim, LONG_LIST)?;
                same(answer.refusal(), if sound { 0 } else { STATUS }, || claim.to_string())?;
                n += 1;
            }
        }
    }
    Ok(n)
}
