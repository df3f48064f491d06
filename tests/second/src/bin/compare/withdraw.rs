//! Claims taken back: lists of additions and withdrawals, the same in the parts of a window and in the whole, and every refusal at its edge.

use crate::faults::{Faulty, FAULTS};
use crate::inputs::sound_claims;
use crate::one_input::{compare_add, compare_open, compare_withdraw, had_often, same, BENEFIT, FULL, NOT_TAKEN, WRONG_FORM};
use crate::studies::{about_bounds, any_claim, any_numbers, is_unsigned, most_at, passing_study, wrong_form, ENOUGH, PAST};
use crate::windows::parts;
use crate::{test, Outcome, Test};
use second::block::claim_record;
use second::calendar::{Date, Day};
use second::claim::Claim;
use second::generate::{damage_rates, sound_claim, sound_rates, sound_window};
use second::rng::Rng;
use second::study::{Study, MOST_CLAIMS, STUDY_LENGTH, SUMS_AT, WEIGHTED_AT};

pub const TESTS: &[Test] = &[
    test("withdrawing: lists of additions and withdrawals", 89, lists),
    test("withdrawing: the same list in the parts of a window and in the whole", 90, in_parts),
    test("withdrawing: records that were never taken", 91, never_taken),
    test("withdrawing: from a study with any numbers", 92, from_any_numbers),
    test("withdrawing: at each bound of check 9, and past it", 93, at_bounds),
    test("withdrawing: about the least and the most claims taken", 94, claims_taken),
    test("withdrawing: each closing about nothing", 95, closings),
    test("withdrawing: the order of the checks", 96, check_order),
    test("withdrawing: numbers about their bounds, and the order of the checks", 97, about_their_bounds),
    test("withdrawing: records and lists that have not the form asked for", 98, |rng| wrong_form(rng, compare_withdraw, NOT_TAKEN)),
];

/// The study of some claims, by additions alone.
fn study_of((first, last): (Date, Date), claims: &[Claim], rates: &[u32]) -> Result<Vec<i64>, String> {
    let (_, mut study) = compare_open(first, last, STUDY_LENGTH)?;
    for claim in claims {
        same(compare_add(&mut study, &claim_record(claim), rates)?, 0, || claim.to_string())?;
    }
    Ok(study)
}

/// An addition, or a withdrawal of a claim that remains; refused claims and tables come in between and must change nothing.
fn any_move(rng: &mut Rng, about: &Claim, remaining: &mut Vec<Claim>) -> (bool, Claim) {
    let withdraws = !remaining.is_empty() && rng.below(20) < 9;
    let claim = if withdraws {
        remaining.swap_remove(rng.below(remaining.len() as u64) as usize)
    } else {
        let near = Claim { number: rng.below(3) as u32, benefit: rng.range(0, 200) as u8, ..*about };
        let claim = if rng.one_in(3) { near } else { Claim { cell: rng.below(4) as u16, ..sound_claim(rng) } };
        remaining.push(claim);
        claim
    };
    (withdraws, claim)
}

fn lists(rng: &mut Rng) -> Outcome {
    let mut n = 0;
    for _ in 0..1_500 {
        let rates = sound_rates(rng, 4);
        let about = sound_claim(rng);
        let window = sound_window(rng, &about);
        let (_, mut study) = compare_open(window.0, window.1, STUDY_LENGTH + rng.below(3) as usize)?;
        let mut remaining = Vec::new();
        for _ in 0..rng.range(1, 80) {
            if rng.one_in(8) {
                // Refused, or sound and undone at once.
                let (claim, mut table) = (any_claim(rng, 5), rates.clone());
                if rng.one_in(2) {
                    damage_rates(rng, &mut table);
                }
                let record = claim_record(&claim);
                let before = study.clone();
                let added = compare_add(&mut study, &record, &table)?;
                if added == 0 {
                    same(compare_withdraw(&mut study, &record, &table)?, 0, || claim.to_string())?;
                } else {
                    let refused = compare_withdraw(&mut study, &record, &table)?;
                    same(refused, added, || format!("{claim}, refused by adding and by withdrawing"))?;
                }
                same(&study, &before, || format!("{claim} added and withdrawn"))?;
                n += 2;
            }
            let (withdraws, claim) = any_move(rng, &about, &mut remaining);
            let call = if withdraws { compare_withdraw } else { compare_add };
            same(call(&mut study, &claim_record(&claim), &rates)?, 0, || format!("{claim}, withdrawn: {withdraws}"))?;
            n += 1;
        }
        rng.shuffle(&mut remaining);
        let wanted = study_of(window, &remaining, &rates)?;
        same(&study[..STUDY_LENGTH], &wanted, || format!("the study of the {} claims remaining", remaining.len()))?;
        // Withdrawn to the last, the study is a fresh one.
        for claim in &remaining {
            same(compare_withdraw(&mut study, &claim_record(claim), &rates)?, 0, || claim.to_string())?;
            n += 1;
        }
        same(&study[..STUDY_LENGTH], &study_of(window, &[], &rates)?, || "all withdrawn".into())?;
        let any = claim_record(&Claim { cell: 0, ..sound_claim(rng) });
        same(compare_withdraw(&mut study, &any, &rates)?, NOT_TAKEN, || "withdrawn from a study without claims".into())?;
    }
    Ok(n)
}

fn in_parts(rng: &mut Rng) -> Outcome {
    let mut n = 0;
    for _ in 0..300 {
        let rates = sound_rates(rng, 4);
        let about = sound_claim(rng);
        let window = sound_window(rng, &about);
        let cuts = rng.below(6);
        let mut windows = vec![window];
        windows.extend(parts(rng, window, cuts));
        let mut studies = Vec::new();
        for (first, last) in &windows {
            studies.push(compare_open(*first, *last, STUDY_LENGTH)?.1);
        }
        let mut remaining = Vec::new();
        for _ in 0..rng.range(1, 60) {
            let (withdraws, claim) = any_move(rng, &about, &mut remaining);
            let call = if withdraws { compare_withdraw } else { compare_add };
            for study in &mut studies {
                same(call(study, &claim_record(&claim), &rates)?, 0, || format!("{claim}, withdrawn: {withdraws}"))?;
                n += 1;
            }
            let (whole, parts) = studies.split_first().unwrap();
            let total: Vec<i64> = (SUMS_AT..STUDY_LENGTH).map(|place| parts.iter().map(|part| part[place]).sum()).collect();
            let input = || format!("the sums of the parts {:?} and of the whole, {claim}, withdrawn: {withdraws}", &windows[1..]);
            same(&total[..], &whole[SUMS_AT..], input)?;
            same(parts.iter().all(|part| part[2] == whole[2]), true, || "claims taken".into())?;
        }
    }
    Ok(n)
}

/// Another record than one taken, in whatever field: the answer is the second implementation's, and what is left too.
fn never_taken(rng: &mut Rng) -> Outcome {
    let (n, mut answers) = (30_000, [0; 256]);
    let rates = sound_rates(rng, 4);
    let mut study = Vec::new();
    let mut claims: Vec<Claim> = Vec::new();
    for i in 0..n {
        if i % 10 == 0 {
            let count = rng.range(0, 4) as usize;
            claims = sound_claims(rng, count, 4);
            let about = claims.first().copied().unwrap_or_default();
            study = study_of(sound_window(rng, &about), &claims, &rates)?;
        }
        let mut claim = if claims.is_empty() { sound_claim(rng) } else { rng.pick(&claims) };
        match rng.below(5) {
            0 => claim.benefit = rng.range(0, 200) as u8,
            1 => claim.code = rng.range(0, 6) as u8,
            2 => claim.maximum = claim.termination,
            3 => claim.number ^= 1,
            _ => claim = sound_claim(rng),
        }
        answers[compare_withdraw(&mut study, &claim_record(&claim), &rates)? as usize] += 1;
    }
    had_often(&answers, &[0, NOT_TAKEN])?;
    Ok(n)
}

/// Every answer is had often.
fn from_any_numbers(rng: &mut Rng) -> Outcome {
    any_numbers(rng, compare_withdraw, &[0, 1, 2, 3, 4, 5, 6, 7, 8, FULL, BENEFIT, NOT_TAKEN, WRONG_FORM])
}

/// What may follow check 9: 18 where no claim is taken, and where there are few closings, by the claim.
pub fn after_check_9(study: &[i64]) -> &'static [u8] {
    let few = |place: usize| is_unsigned(place) && study[place] < ENOUGH;
    match study[2] {
        0 => &[NOT_TAKEN],
        _ if (SUMS_AT..STUDY_LENGTH).any(few) => &[0, NOT_TAKEN],
        _ => &[0],
    }
}

fn about_their_bounds(rng: &mut Rng) -> Outcome {
    about_bounds(rng, compare_withdraw, MOST_CLAIMS as i64, after_check_9)
}

/// A study that a claim can be withdrawn from, with all that it may have in the way of closings.
fn rich_study(rng: &mut Rng, claim: &Claim) -> Vec<i64> {
    let mut study = passing_study(rng, claim);
    for place in (2..STUDY_LENGTH).filter(|&place| is_unsigned(place)) {
        study[place] = study[place].max(1_000);
    }
    study
}

/// Each number at its bound and just beyond. A withdrawal may leave a sum beyond its bound, where the next one is refused.
fn at_bounds(rng: &mut Rng) -> Outcome {
    let (mut n, mut past) = (0, 0);
    for _ in 0..30 {
        for place in 2..STUDY_LENGTH {
            let rates = sound_rates(rng, 1);
            let claim = sound_claims(rng, 1, 1)[0];
            let study = rich_study(rng, &claim);
            let most = if place == 2 { MOST_CLAIMS as i64 } else { most_at(place) };
            let sides: &[i64] = if is_unsigned(place) { &[1] } else { &[1, -1] };
            for &side in sides {
                for beyond in [-1, 0, 1, 2] {
                    let mut study = study.clone();
                    study[place] = side * (most + beyond);
                    let answer = compare_withdraw(&mut study, &claim_record(&claim), &rates)?;
                    same(answer, if beyond > 0 { FULL } else { 0 }, || format!("{} at place {place}", side * (most + beyond)))?;
                    let is_past = |place: usize| !is_unsigned(place) && study[place].abs() > most_at(place);
                    let left = if (SUMS_AT..STUDY_LENGTH).any(is_past) { FULL } else { answer };
                    past += u64::from(left == FULL && answer == 0);
                    let again = compare_withdraw(&mut study, &claim_record(&claim), &rates)?;
                    same(again, left, || format!("{} at place {place}, withdrawn again", side * (most + beyond)))?;
                    n += 2;
                }
            }
        }
    }
    same(past > n / 20, true, || format!("{past} of {n} past a bound"))?;
    Ok(n)
}

fn claims_taken(rng: &mut Rng) -> Outcome {
    let mut n = 0;
    for _ in 0..2_500 {
        let rates = sound_rates(rng, 1);
        let claim = sound_claims(rng, 1, 1)[0];
        let rich = rich_study(rng, &claim);
        let most = MOST_CLAIMS as i64;
        let mut cases = vec![(0, NOT_TAKEN), (1, 0), (2, 0), (most - 1, 0), (most, 0), (most + 1, FULL), (PAST - 1, FULL)];
        cases.extend([-1, -most, -PAST, PAST, PAST + 5, i64::MIN, i64::MAX].map(|taken| (taken, FULL)));
        for (taken, wanted) in cases {
            let mut study = rich.clone();
            study[2] = taken;
            same(compare_withdraw(&mut study, &claim_record(&claim), &rates)?, wanted, || format!("{claim} of {taken} claims"))?;
            if wanted == 0 {
                same(study[2], taken - 1, || format!("claims left of {taken}"))?;
            }
            n += 1;
        }
    }
    Ok(n)
}

/// The one place that a closing claim touches, by count and weighted; of a claim not closed in the window none, whatever the closings are.
fn closings(rng: &mut Rng) -> Outcome {
    let (mut n, mut closed) = (0, 0);
    for _ in 0..4_000 {
        let rates = sound_rates(rng, 1);
        let claim = sound_claims(rng, 1, 1)[0];
        let mut study = passing_study(rng, &claim);
        study[2] = study[2].max(1);
        let window = [study[0], study[1]].map(|day| Day(day as i32).date());
        let share = study_of((window[0], window[1]), &[claim], &rates)?;
        let touched = (SUMS_AT..WEIGHTED_AT).find(|&place| is_unsigned(place) && share[place] == 1);
        let weight = claim.benefit.max(1) as i64;
        for (count, sum) in
            [(0, 0), (0, weight), (1, weight - 1), (1, weight), (2, weight + 1), (500_000, 100_000_000), (0, 100_000_000), (9, 0)]
        {
            let mut study = study.clone();
            if rng.one_in(2) {
                // Nowhere else is there a closing.
                (SUMS_AT..STUDY_LENGTH).filter(|&place| is_unsigned(place)).for_each(|place| study[place] = 0);
            }
            let mut wanted = 0;
            if let Some(place) = touched {
                (study[place], study[place + WEIGHTED_AT - SUMS_AT]) = (count, sum);
                wanted = if count < 1 || sum < weight { NOT_TAKEN } else { 0 };
            }
            let input = || format!("{claim}, {count} and {sum} at place {touched:?}");
            same(compare_withdraw(&mut study, &claim_record(&claim), &rates)?, wanted, input)?;
            n += 1;
        }
        closed += u64::from(touched.is_some());
    }
    same(n / 32 < closed && closed < n / 9, true, || format!("{closed} closed of {}", n / 8))?;
    Ok(n)
}

/// Some of the faults at once; 18 comes last.
fn check_order(rng: &mut Rng) -> Outcome {
    let (n, mut answers) = (50_000, [0; 256]);
    for _ in 0..n {
        let faulty = Faulty::new(rng);
        let missing = rng.one_in(2);
        let taken = if faulty.has(FULL) && rng.one_in(2) { MOST_CLAIMS + 1 } else { u32::from(!missing) };
        let mut study = faulty.study(taken);
        if faulty.has(FULL) && taken <= MOST_CLAIMS {
            let place = rng.range(SUMS_AT as i64, STUDY_LENGTH as i64 - 1) as usize;
            study[place] = most_at(place) + 1;
        }
        if !missing {
            for place in (SUMS_AT..STUDY_LENGTH).filter(|&place| is_unsigned(place)) {
                study[place] = study[place].max(200);
            }
        }
        let first = faulty.first_of(&FAULTS);
        let wanted = if first == 0 && missing { NOT_TAKEN } else { first };
        let answer = compare_withdraw(&mut study, &claim_record(&faulty.claim), &faulty.rates)?;
        same(answer, wanted, || format!("{faulty}, missing: {missing}"))?;
        answers[answer as usize] += 1;
    }
    had_often(&answers, &[0, 1, 2, 3, 4, BENEFIT, 5, 6, 7, 8, FULL, NOT_TAKEN])?;
    // A study opened in a bad window has none to withdraw from, and 1 comes first.
    for _ in 0..1_000 {
        let mut study = Study::unopened().numbers();
        let record = claim_record(&any_claim(rng, 1));
        compare_withdraw(&mut study, &record, &sound_rates(rng, 1))?;
        (study[0], study[1]) = (1, 0);
        same(compare_withdraw(&mut study, &record, &[])?, 1, || "a bad window".into())?;
    }
    Ok(n + 2_000)
}
