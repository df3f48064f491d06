//! Studies joined: of two claim lists, in a window and in its parts, with any numbers in either, and at every bound from both sides.

use crate::inputs::{sound_study, STUDY_WINDOW};
use crate::one_input::{
    compare_add, compare_join, compare_open, compare_withdraw, had_often, same, FULL, OTHER_WINDOW, WINDOW, WRONG_FORM,
};
use crate::studies::{bounds_at, disturb_some, has_bad_window, is_full, is_unsigned, most_at, move_to_bounds, passing_study, PAST};
use crate::windows::parts;
use crate::{test, Outcome, Test};
use second::block::claim_record;
use second::calendar::{Date, Day};
use second::claim::Claim;
use second::generate::sound_claim;
use second::rng::Rng;
use second::study::{Study, MOST_CLAIMS, STUDY_LENGTH, SUMS_AT};

pub const TESTS: &[Test] = &[
    test("joining: the study of both claim lists", 99, both_lists),
    test("joining: the parts of a window total the pooled whole", 100, in_parts),
    test("joining: studies with any numbers", 101, any_numbers),
    test("joining: each number at its bound, from both sides", 102, at_bounds),
    test("joining: about the most claims taken", 103, claims_taken),
    test("joining: bad windows and unequal ones", 104, windows),
    test("joining: numbers about their bounds, and the order of the checks", 105, about_bounds),
    test("joining: every length of either list", 106, lengths),
];

/// The study of some claims, with others added and withdrawn in between.
pub fn study_of(rng: &mut Rng, (first, last): (Date, Date), claims: &[Claim], rates: &[u32]) -> Result<Vec<i64>, String> {
    let (_, mut study) = compare_open(first, last, STUDY_LENGTH)?;
    for claim in claims {
        let mistaken = claim_record(&Claim { cell: claim.cell, ..sound_claim(rng) });
        let withdraws = rng.one_in(4);
        if withdraws {
            same(compare_add(&mut study, &mistaken, rates)?, 0, || claim.to_string())?;
        }
        same(compare_add(&mut study, &claim_record(claim), rates)?, 0, || claim.to_string())?;
        if withdraws {
            same(compare_withdraw(&mut study, &mistaken, rates)?, 0, || claim.to_string())?;
        }
    }
    Ok(study)
}

/// The study of a list cut in two, joined; it must be that of the whole list.
fn pooled(rng: &mut Rng, window: (Date, Date), claims: &[Claim], at: usize, rates: &[u32]) -> Result<Vec<i64>, String> {
    let mut study = study_of(rng, window, &claims[..at], rates)?;
    let other = study_of(rng, window, &claims[at..], rates)?;
    let input = || format!("{} claims and {} in {} to {}", at, claims.len() - at, window.0, window.1);
    same(compare_join(&mut study, &other)?, 0, input)?;
    same(&study, &study_of(rng, window, claims, rates)?, input)?;
    Ok(study)
}

fn both_lists(rng: &mut Rng) -> Outcome {
    let n = 3_000;
    for _ in 0..n {
        let (window, claims, rates) = sound_study(rng, 24);
        let at = rng.below(claims.len() as u64 + 1) as usize;
        pooled(rng, window, &claims, at, &rates)?;
    }
    Ok(n)
}

fn in_parts(rng: &mut Rng) -> Outcome {
    let mut n = 0;
    for _ in 0..600 {
        let (window, claims, rates) = sound_study(rng, 16);
        let at = rng.below(claims.len() as u64 + 1) as usize;
        let whole = pooled(rng, window, &claims, at, &rates)?;
        let cuts = rng.below(5);
        let mut total = vec![0; STUDY_LENGTH];
        for part in parts(rng, window, cuts) {
            let study = pooled(rng, part, &claims, at, &rates)?;
            same(study[2], whole[2], || "claims taken".into())?;
            total.iter_mut().zip(&study).for_each(|(sum, number)| *sum += number);
            n += 1;
        }
        same(&total[SUMS_AT..], &whole[SUMS_AT..], || format!("the sums of the parts of {} to {} and of the whole", window.0, window.1))?;
        n += 1;
    }
    Ok(n)
}

/// Two studies that check 9 lets pass, of one window, and small enough to be joined or not.
fn two_studies(rng: &mut Rng) -> [Vec<i64>; 2] {
    let claim = sound_claim(rng);
    let mut studies = [0; 2].map(|_| passing_study(rng, &claim));
    let (first, last) = (studies[0][0], studies[0][1]);
    (studies[1][0], studies[1][1]) = (first, last);
    if !rng.one_in(4) {
        for study in &mut studies {
            study[2..].iter_mut().for_each(|number| *number /= 2);
        }
    }
    studies
}

fn any_numbers(rng: &mut Rng) -> Outcome {
    let (n, mut answers) = (120_000, [0; 256]);
    for _ in 0..n {
        let [mut study, mut other] = two_studies(rng);
        if rng.one_in(2) {
            disturb_some(rng, &mut study);
        }
        if rng.one_in(2) {
            disturb_some(rng, &mut other);
        }
        if rng.one_in(4) {
            (other[0], other[1]) = (study[0], study[1]);
        }
        answers[compare_join(&mut study, &other)? as usize] += 1;
    }
    had_often(&answers, &[0, WINDOW, FULL, OTHER_WINDOW])?;
    Ok(n)
}

/// The paper's answer for two numbers at a place, all others being within their bounds by half.
fn joins(place: usize, one: i64, other: i64) -> bool {
    let most = if place == 2 { MOST_CLAIMS as i128 } else { most_at(place) as i128 };
    let (one, other) = (one as i128, other as i128);
    let least = if is_unsigned(place) { 0 } else { -most };
    [one, other, one + other].iter().all(|number| (least..=most).contains(number))
}

fn at_bounds(rng: &mut Rng) -> Outcome {
    let mut n = 0;
    for _ in 0..12 {
        for place in 2..STUDY_LENGTH {
            let most = if place == 2 { MOST_CLAIMS as i64 } else { most_at(place) };
            let small = rng.range(2, 1_000);
            let any = rng.range(1, most - 1);
            let mut pairs = vec![(most, 0), (most + 1, 0), (most, 1), (most - 1, 1), (most - 1, 2), (most, most), (most - small, small)];
            pairs.extend([
                (most - small, small + 1),
                (any, most - any),
                (any, most - any + 1),
                (most / 2, most / 2),
                (most / 2 + 1, most / 2),
            ]);
            if is_unsigned(place) {
                pairs.extend([(PAST - 1, 0), (PAST - 1, 1), (PAST - 1, PAST - 1), (PAST - most, most), (1 << 31, 1 << 31)]);
                // Below zero in one, though not together; past 32 bits, and past 64 together.
                pairs.extend([(-1, 0), (-1, 1), (-1, any), (most + 1, -1), (PAST, 0), (PAST + 5, 1), (PAST, -PAST), (i64::MAX, i64::MAX)]);
            } else {
                // Of one sign and of both; beyond in one alone, and small in 64 bits.
                let negative: Vec<(i64, i64)> = pairs.iter().map(|(one, other)| (-one, -other)).collect();
                pairs.extend(negative);
                pairs.extend([(most, -most), (most + 1, -1), (-most - 1, 1), (most, -1), (-most, any), (most + 1, -most - 1)]);
                pairs.extend([(i64::MAX, i64::MAX), (i64::MIN, i64::MIN), (i64::MAX, i64::MIN), (i64::MIN, 0), (i64::MAX, 1)]);
            }
            for (one, other) in pairs.into_iter().flat_map(|(one, other)| [(one, other), (other, one)]) {
                let mut studies = two_studies(rng).map(|mut study| {
                    study[2..STUDY_LENGTH].iter_mut().for_each(|number| *number /= 4);
                    study
                });
                (studies[0][place], studies[1][place]) = (one, other);
                let [mut study, other_study] = studies;
                let wanted = if joins(place, one, other) { 0 } else { FULL };
                same(compare_join(&mut study, &other_study)?, wanted, || format!("{one} and {other} at place {place}"))?;
                if wanted == 0 {
                    same(study[place], one + other, || format!("{one} and {other} at place {place}"))?;
                }
                n += 1;
            }
        }
    }
    Ok(n)
}

fn claims_taken(rng: &mut Rng) -> Outcome {
    let mut n = 0;
    let most = MOST_CLAIMS as i64;
    for _ in 0..3_000 {
        let any = rng.range(0, most);
        let mut pairs = vec![(0, most), (any, most - any), (any, most - any + 1), (most + 1, 0), (any, PAST - any - 1), (PAST - 1, 1)];
        pairs.extend([(-1, any), (-1, 1), (any, -any), (PAST, 0), (PAST + any, 0), (PAST, -PAST), (i64::MIN, any)]);
        for (one, other) in pairs.into_iter().flat_map(|(one, other)| [(one, other), (other, one)]) {
            let window = Study::open(STUDY_WINDOW.0, STUDY_WINDOW.1).unwrap().numbers();
            let (mut study, mut other_study) = (window, window);
            (study[2], other_study[2]) = (one, other);
            let wanted = if joins(2, one, other) { 0 } else { FULL };
            same(compare_join(&mut study, &other_study)?, wanted, || format!("{one} and {other} claims"))?;
            n += 1;
        }
    }
    Ok(n)
}

/// 1 before 15, and both before 9.
fn windows(rng: &mut Rng) -> Outcome {
    let (n, mut answers) = (40_000, [0; 256]);
    let last = Day::LAST.0 as i64;
    for _ in 0..n {
        let [mut study, mut other] = two_studies(rng);
        for study in [&mut study, &mut other] {
            study[2..STUDY_LENGTH].iter_mut().for_each(|number| *number /= 4);
        }
        let full = rng.one_in(4);
        if full {
            let place = rng.range(2, STUDY_LENGTH as i64 - 1) as usize;
            let fuller = if rng.one_in(2) { &mut study } else { &mut other };
            fuller[place] = if is_unsigned(place) { rng.pick(&[most_at(place) + 2, -1, PAST]) } else { most_at(place) + 1 };
        }
        let day = |rng: &mut Rng, day: i64| match rng.below(10) {
            0 => rng.range(0, last),
            1 => last + 1,
            2 => rng.pick(&[-1, 0, last, last + 2, 1 << 31, PAST - 1, PAST, PAST + day]),
            3 => day - 1,
            4 => day + 1,
            _ => day,
        };
        (other[0], other[1]) = (day(rng, study[0]), day(rng, study[1]));
        if rng.one_in(4) {
            (study[0], study[1]) = (day(rng, study[0]), day(rng, study[1]));
        }
        if rng.one_in(8) {
            // Bad, and the same in both.
            let bad =
                [(1, 0), (last, last - 1), (0, last + 1), (last + 1, last + 1), (PAST - 1, PAST - 1), (-1, 0), (-1, -1), (PAST, PAST)];
            (study[0], study[1]) = rng.pick(&bad);
            (other[0], other[1]) = (study[0], study[1]);
        }
        let wanted = match () {
            _ if has_bad_window(&study) || has_bad_window(&other) => WINDOW,
            _ if study[..2] != other[..2] => OTHER_WINDOW,
            _ if full => FULL,
            _ => 0,
        };
        let answer = compare_join(&mut study, &other)?;
        same(answer, wanted, || format!("windows {:?} and {:?}, full: {full}", &study[..2], &other[..2]))?;
        answers[answer as usize] += 1;
    }
    had_often(&answers, &[0, WINDOW, OTHER_WINDOW, FULL])?;
    Ok(n)
}

/// Numbers about their bounds in either study or in both, with equal windows and others: 1 of the first, 1 of the second, 15, 9.
fn about_bounds(rng: &mut Rng) -> Outcome {
    let (n, mut answers, most) = (120_000, [0; 256], MOST_CLAIMS as i64);
    for _ in 0..n {
        let [mut study, mut other] = two_studies(rng);
        if rng.one_in(2) {
            move_to_bounds(rng, &mut study, most);
        }
        if rng.one_in(2) {
            move_to_bounds(rng, &mut other, most);
        }
        if rng.one_in(8) {
            other[rng.below(2) as usize] += rng.pick(&[-1, 1]);
        }
        let window = [study[0], study[1]];
        let both: Vec<i128> = study.iter().zip(&other).map(|(&one, &two)| one as i128 + two as i128).collect();
        let past = |place: usize| i64::try_from(both[place]).map_or(true, |number| !bounds_at(place, most).contains(&number));
        let wanted = match () {
            _ if has_bad_window(&study) || has_bad_window(&other) => WINDOW,
            _ if other[..2] != window => OTHER_WINDOW,
            _ if is_full(&study, most) || is_full(&other, most) || (2..STUDY_LENGTH).any(past) => FULL,
            _ => 0,
        };
        let input = format!("{study:?}\nand {other:?}");
        let answer = compare_join(&mut study, &other)?;
        same(answer, wanted, || input)?;
        answers[answer as usize] += 1;
    }
    had_often(&answers, &[0, WINDOW, OTHER_WINDOW, FULL])?;
    Ok(n)
}

/// A longer list is taken, whatever follows; a shorter one is 255, also where the numbers would be refused.
fn lengths(rng: &mut Rng) -> Outcome {
    let mut n = 0;
    let fresh = Study::open(STUDY_WINDOW.0, STUDY_WINDOW.1).unwrap().numbers().to_vec();
    let [bad, below_zero] = [PAST - 1, -1].map(|number| vec![number; STUDY_LENGTH]);
    for _ in 0..40 {
        for length in (0..=STUDY_LENGTH + 3).chain([2 * STUDY_LENGTH]) {
            for (study, numbered) in [(&fresh, 0), (&bad, WINDOW), (&below_zero, WINDOW)] {
                let mut other_length = study.clone();
                other_length.resize(length, rng.pick(&[-7, 0, 7]));
                let wanted = if length < STUDY_LENGTH { WRONG_FORM } else { numbered };
                let input = || format!("{length} numbers in one of the lists");
                same(compare_join(&mut other_length.clone(), study)?, wanted, input)?;
                same(compare_join(&mut study.clone(), &other_length)?, wanted, input)?;
                same(compare_join(&mut other_length.clone(), &other_length)?, wanted, input)?;
                n += 3;
            }
        }
    }
    Ok(n)
}
