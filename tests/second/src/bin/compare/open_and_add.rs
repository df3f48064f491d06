//! A study as a list: opened, added to claim by claim, and with any numbers in it; and the window of a claim file's block 0.

use crate::inputs::{sound_claims, STUDY_WINDOW};
use crate::one_input::{compare_add, compare_open, compare_read_window, same, BENEFIT, BLOCK, FULL, WRONG_FORM};
use crate::studies::{about_bounds, any_claim, any_numbers, is_unsigned, most_at, passing_study, wrong_form};
use crate::{test, Outcome, Test};
use second::block::{claim_record, seal, write_block, write_window, BLOCK_LENGTH};
use second::calendar::Date;
use second::claim::Claim;
use second::generate::{damage_file, damage_rates, sound_claim, sound_rates, sound_window, wild_date};
use second::rng::Rng;
use second::study::{MOST_CLAIMS, STUDY_LENGTH};

pub const TESTS: &[Test] = &[
    test("opening: sound and wild dates", 39, opening),
    test("opening: every length of list", 40, opening_lengths),
    test("adding: claims one after another", 41, adding),
    test("adding: to a study with any numbers", 42, to_any_numbers),
    test("adding: at each bound of check 9", 43, at_bounds),
    test("adding: numbers about their bounds, and the order of the checks", 44, about_their_bounds),
    test("adding: records and lists that have not the form asked for", 45, |rng| wrong_form(rng, compare_add, 0)),
    test("windows of block 0: sound and damaged", 47, read_windows),
];

fn opening(rng: &mut Rng) -> Outcome {
    let (n, mut refused) = (100_000, 0);
    for i in 0..n {
        let (first, last) = match i % 4 {
            0 => (wild_date(rng), wild_date(rng)),
            1 => (Date::from_number(rng.bits() as u32), Date::from_number(rng.bits() as u32)),
            _ => {
                let claim = sound_claim(rng);
                let (first, last) = sound_window(rng, &claim);
                match rng.below(6) {
                    0 => (last, first),
                    1 => (wild_date(rng), last),
                    2 => (first, wild_date(rng)),
                    _ => (first, last),
                }
            }
        };
        let length = STUDY_LENGTH + rng.below(4) as usize;
        let (answer, study) = compare_open(first, last, length)?;
        let input = || format!("opening {first} to {last}");
        // The paper's words, beside the second implementation's numbers.
        let window = match (first.day_number(), last.day_number()) {
            (Some(first), Some(last)) if first <= last => Some([first.0 as i64, last.0 as i64]),
            _ => None,
        };
        same((answer, &study[..2]), (u8::from(window.is_none()), &window.unwrap_or([0, 0])[..]), input)?;
        same(&study[2..STUDY_LENGTH], &[0; STUDY_LENGTH - 2][..], input)?;
        refused += u64::from(answer == 1);
    }
    same(n / 10 < refused && refused < n * 9 / 10, true, || format!("{refused} refused of {n}"))?;
    Ok(n)
}

fn opening_lengths(rng: &mut Rng) -> Outcome {
    let mut n = 0;
    for _ in 0..50 {
        for length in 0..=STUDY_LENGTH + 5 {
            for (first, last) in [STUDY_WINDOW, (STUDY_WINDOW.1, STUDY_WINDOW.0), (wild_date(rng), wild_date(rng))] {
                let (answer, _) = compare_open(first, last, length)?;
                same(answer == WRONG_FORM, length < STUDY_LENGTH, || format!("opening in a list of {length}"))?;
                n += 1;
            }
        }
    }
    Ok(n)
}

/// Studies that each addition takes as the one before left it.
fn adding(rng: &mut Rng) -> Outcome {
    let (mut n, mut taken) = (0, 0);
    for _ in 0..2_000 {
        let cells = rng.range(1, 4) as usize;
        let rates = sound_rates(rng, cells);
        let about = sound_claim(rng);
        let (first, last) = sound_window(rng, &about);
        let length = STUDY_LENGTH + rng.below(3) as usize;
        let (_, mut study) = compare_open(first, last, length)?;
        let mut accepted = 0;
        for _ in 0..rng.range(1, 60) {
            // Some of them near the window.
            let mut claim = any_claim(rng, cells);
            if rng.one_in(3) {
                claim = Claim { number: claim.number, cell: claim.cell, ..about };
            }
            let mut table = rates.clone();
            if rng.one_in(8) {
                damage_rates(rng, &mut table);
            }
            accepted += i64::from(compare_add(&mut study, &claim_record(&claim), &table)? == 0);
            n += 1;
        }
        same(study[2], accepted, || format!("claims taken in {first} to {last}"))?;
        taken += accepted as u64;
    }
    same(n / 4 < taken && taken < n * 9 / 10, true, || format!("{taken} taken of {n}"))?;
    Ok(n)
}

/// Every answer is had often.
fn to_any_numbers(rng: &mut Rng) -> Outcome {
    any_numbers(rng, compare_add, &[0, 1, 2, 3, 4, 5, 6, 7, 8, FULL, BENEFIT, WRONG_FORM])
}

fn about_their_bounds(rng: &mut Rng) -> Outcome {
    about_bounds(rng, compare_add, MOST_CLAIMS as i64 - 1, |_| &[0])
}

/// Each number at its bound and just beyond, the others within theirs.
fn at_bounds(rng: &mut Rng) -> Outcome {
    let mut n = 0;
    for _ in 0..60 {
        for place in 2..STUDY_LENGTH {
            let rates = sound_rates(rng, 1);
            let claim = sound_claims(rng, 1, 1)[0];
            let study = passing_study(rng, &claim);
            let most = most_at(place);
            let sides: &[i64] = if is_unsigned(place) { &[1] } else { &[1, -1] };
            for &side in sides {
                for beyond in [-1, 0, 1, 2] {
                    let mut study = study.clone();
                    study[place] = side * (most + beyond);
                    let answer = compare_add(&mut study, &claim_record(&claim), &rates)?;
                    let wanted = if beyond > 0 { FULL } else { 0 };
                    same(answer, wanted, || format!("{} at place {place}", side * (most + beyond)))?;
                    // What was added at the bound may be beyond it now.
                    compare_add(&mut study, &claim_record(&claim), &rates)?;
                    n += 2;
                }
            }
        }
    }
    Ok(n)
}

fn read_windows(rng: &mut Rng) -> Outcome {
    let mut n = 0;
    let mut block = vec![0; BLOCK_LENGTH];
    // Every bit, and with the check set right again.
    write_window(STUDY_WINDOW.0, STUDY_WINDOW.1, &mut block).unwrap();
    for at in 0..BLOCK_LENGTH {
        for bit in 0..8 {
            let mut damaged = block.clone();
            damaged[at] ^= 1 << bit;
            same(compare_read_window(&damaged, 2)?.0, BLOCK, || format!("byte {at} damaged"))?;
            seal(&mut damaged);
            compare_read_window(&damaged, 2)?;
            n += 2;
        }
    }
    for _ in 0..25_000 {
        let mut block = vec![0; BLOCK_LENGTH];
        if rng.one_in(8) {
            // A claim block.
            let claims = sound_claims(rng, 2, 1);
            let count = rng.below(3) as usize;
            write_block(rng.pick(&[1, 2, 256]), &claims[..count], &mut block).unwrap();
        } else {
            write_window(wild_date(rng), wild_date(rng), &mut block).unwrap();
        }
        if rng.one_in(2) {
            damage_file(rng, &mut block);
        }
        let length = rng.pick(&[0, 1, 2, 2, 2, 3, 4]);
        let (answer, _) = compare_read_window(&block, length)?;
        same(answer == WRONG_FORM, length < 2, || format!("a window into {length} numbers: {answer}"))?;
        n += 1;
    }
    for length in [0, 1, 24, 510, 511, 513, 1_024] {
        block.resize(length, 0);
        same(compare_read_window(&block, 2)?.0, BLOCK, || format!("a block of {length} bytes"))?;
        same(compare_read_window(&block, 1)?.0, WRONG_FORM, || format!("a block of {length} bytes, a list of 1"))?;
        n += 2;
    }
    Ok(n)
}
