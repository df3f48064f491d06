//! Windows: the parts of a window total the whole, through the first implementation.

use crate::inputs::{file_of, sound_claims, sound_study};
use crate::one_input::{answer, compare_file_study, hex, list, same};
use crate::{test, Outcome, Test};
use second::calendar::{Date, Day};
use second::generate::{claim_file, damage_claim, damage_rates, sound_claim, sound_rates};
use second::rates::CELL_LENGTH;
use second::rng::Rng;
use second::run::RUN_LENGTH;

pub const TESTS: &[Test] = &[
    test("windows: parts total the whole, claims in any order", 15, any_order),
    test("windows: one day each", 16, single_days),
    test("windows: a refused claim stops all parts at one place", 17, refused),
];

/// The parts that some cuts make of a window.
pub fn parts(rng: &mut Rng, (first, last): (Date, Date), cuts: u64) -> Vec<(Date, Date)> {
    let (first, last) = (first.day_number().unwrap().0, last.day_number().unwrap().0);
    let mut starts: Vec<i32> = (0..cuts).map(|_| rng.range(first as i64, last as i64) as i32).collect();
    starts.extend([first, last + 1]);
    starts.sort();
    starts.dedup();
    starts.windows(2).map(|part| (Day(part[0]).date(), Day(part[1] - 1).date())).collect()
}

/// Runs each part with `file_in` and holds it against the whole: refusal and claims taken the same, sums together the same.
fn check_parts(
    whole: (Date, Date),
    parts: &[(Date, Date)],
    rates: &[u32],
    mut file_in: impl FnMut((Date, Date)) -> Vec<u8>,
) -> Result<(), String> {
    let file = file_in(whole);
    let numbers = compare_file_study(&file, rates)?;
    let mut total = [0; RUN_LENGTH - 6];
    for &part in parts {
        let part_numbers = compare_file_study(&file_in(part), rates)?;
        let run = |numbers: &[i64; RUN_LENGTH]| [numbers[0], numbers[1], numbers[2], numbers[5]];
        same(run(&part_numbers), run(&numbers), || {
            format!("number, block, place and claims taken in the part {} to {} and the whole, file\n{}", part.0, part.1, hex(&file))
        })?;
        for (sum, number) in total.iter_mut().zip(&part_numbers[6..]) {
            *sum += number;
        }
    }
    same(&total[..], &numbers[6..], || {
        let parts: Vec<String> = parts.iter().map(|(first, last)| format!("{first} to {last}")).collect();
        format!("the sums of the parts {} and of the whole, file\n{}rates {}", parts.join(", "), hex(&file), list(rates))
    })
}

fn any_order(rng: &mut Rng) -> Outcome {
    let mut n = 0;
    for _ in 0..500 {
        let (window, mut claims, rates) = sound_study(rng, 60);
        let cuts = rng.below(9);
        let parts = parts(rng, window, cuts);
        n += parts.len() as u64 + 1;
        check_parts(window, &parts, &rates, |part| {
            rng.shuffle(&mut claims);
            file_of(rng, part, &claims)
        })?;
    }
    Ok(n)
}

fn single_days(rng: &mut Rng) -> Outcome {
    let mut n = 0;
    for _ in 0..60 {
        let rates = sound_rates(rng, 1);
        let mut claims = sound_claims(rng, 4, 1);
        // A window of 70 days around the end of the first claim.
        let end = claims[0].termination.day_number().or(claims[0].bcd.day_number()).unwrap().0;
        let first = (end - 35).clamp(0, Day::LAST.0 - 69);
        let parts: Vec<(Date, Date)> = (first..first + 70).map(|day| (Day(day).date(), Day(day).date())).collect();
        n += parts.len() as u64 + 1;
        check_parts((Day(first).date(), Day(first + 69).date()), &parts, &rates, |part| {
            rng.shuffle(&mut claims);
            claim_file(part, &claims, None)
        })?;
    }
    Ok(n)
}

fn refused(rng: &mut Rng) -> Outcome {
    let mut n = 0;
    for _ in 0..500 {
        let (window, mut claims, mut rates) = sound_study(rng, 60);
        claims.push(sound_claim(rng));
        let place = rng.below(claims.len() as u64) as usize;
        while answer(&claims[place].check()) == 0 && (claims[place].cell as usize) < rates.len() / CELL_LENGTH {
            damage_claim(rng, &mut claims[place]);
        }
        if rng.one_in(5) {
            damage_rates(rng, &mut rates);
        }
        let cuts = rng.below(6);
        let parts = parts(rng, window, cuts);
        n += parts.len() as u64 + 1;
        check_parts(window, &parts, &rates, |part| claim_file(part, &claims, None))?;
    }
    Ok(n)
}
