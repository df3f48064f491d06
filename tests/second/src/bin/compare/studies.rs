//! Studies with any numbers in them, claims to add to them or to withdraw, and what both calls have in common.

use crate::faults::{Faulty, OF_CLAIM_AND_RATES};
use crate::inputs::{closed_claim, flat_rates, sound_claims, spoil_record};
use crate::one_input::{had_often, same, Move, BENEFIT, CELL, FULL, RATE_TABLE, WINDOW, WRONG_FORM};
use crate::Outcome;
use second::block::{claim_record, CLAIM_LENGTH, ZEROS_AT};
use second::calendar::Day;
use second::claim::{Claim, RECOVERY};
use second::generate::{damage_claim, damage_rates, sound_rates, sound_window};
use second::rng::Rng;
use second::study::{Study, GROUP_LENGTH, MOST_CLAIMS, MOST_EXPECTED, MOST_THIRTIETHS, STUDY_LENGTH, SUMS_AT, WEIGHTED_AT};
use std::ops::RangeInclusive;

/// The first number past 32 bits.
pub const PAST: i64 = 1 << 32;
/// Claims taken, closings and weighted closings that any claim can be withdrawn from.
pub const ENOUGH: i64 = 200;

/// A claim that is refused often.
pub fn any_claim(rng: &mut Rng, cells: usize) -> Claim {
    let mut claim = sound_claims(rng, 1, cells)[0];
    if rng.one_in(3) {
        damage_claim(rng, &mut claim);
    }
    claim
}

/// The most that check 9 lets stand at a place of the list of numbers; days have none.
pub fn most_at(place: usize) -> i64 {
    if place < SUMS_AT {
        return MOST_CLAIMS as i64 - 1;
    }
    let times = if place < WEIGHTED_AT { 1 } else { 200 };
    times
        * match (place - SUMS_AT) % GROUP_LENGTH {
            0 => MOST_THIRTIETHS,
            1..=5 => MOST_CLAIMS as i64,
            _ => MOST_EXPECTED,
        }
}

/// Days, claims taken, closing counts and weighted closing sums.
pub fn is_unsigned(place: usize) -> bool {
    place < SUMS_AT || (1..=5).contains(&((place - SUMS_AT) % GROUP_LENGTH))
}

/// A study that check 9 lets pass, in a window for the claim, in a list that may be longer.
pub fn passing_study(rng: &mut Rng, claim: &Claim) -> Vec<i64> {
    let (first, last) = sound_window(rng, claim);
    let mut numbers = Study::open(first, last).unwrap().numbers().to_vec();
    for (place, number) in numbers.iter_mut().enumerate().skip(2) {
        let most = most_at(place);
        let least = if is_unsigned(place) { 0 } else { -most };
        *number = match rng.below(6) {
            0 => least,
            1 => most,
            2 => rng.range(least, most),
            3 => 0,
            _ => rng.range(least.max(-1_000_000), most.min(1_000_000)),
        };
    }
    numbers.resize(STUDY_LENGTH + rng.below(3) as usize, rng.bits() as i64);
    numbers
}

fn any_number(rng: &mut Rng) -> i64 {
    let shift = rng.below(64);
    (rng.bits() as i64) >> shift
}

/// A number for a place of the list that may be too much for check 1 or for check 9.
pub fn disturb(rng: &mut Rng, study: &mut [i64], place: usize) {
    let most = if place < 2 { Day::LAST.0 as i64 } else { most_at(place) };
    study[place] = match rng.below(8) {
        0 => most + 1,
        1 => -most - 1,
        2 => most,
        3 => -most,
        4 => rng.pick(&[0, -1, 1 << 31, (1 << 31) - 1, PAST - 1, PAST, PAST + 5, i64::MAX, i64::MIN]),
        5 => rng.below(PAST as u64) as i64,
        6 => rng.range(0, most),
        _ => any_number(rng),
    };
}

/// Disturbs a study in the window, in one number or some, in its sums, or not at all.
pub fn disturb_some(rng: &mut Rng, study: &mut [i64]) {
    match rng.below(6) {
        0 => {}
        1 => {
            // The window alone: days of the calendar in any order, or just past it.
            let day = |rng: &mut Rng| match rng.below(3) {
                0 => rng.pick(&[-1, 0, 1, Day::LAST.0 as i64, Day::LAST.0 as i64 + 1, 1 << 31, PAST - 1, PAST]),
                1 => rng.range(0, 2 * Day::LAST.0 as i64),
                _ => rng.range(0, Day::LAST.0 as i64),
            };
            (study[0], study[1]) = (day(rng), day(rng));
        }
        2 => {
            let place = rng.range(2, STUDY_LENGTH as i64 - 1) as usize;
            disturb(rng, study, place);
        }
        3 => {
            let place = rng.below(3) as usize;
            disturb(rng, study, place);
        }
        4 => {
            for _ in 0..rng.range(1, 4) {
                let place = rng.below(STUDY_LENGTH as u64) as usize;
                disturb(rng, study, place);
            }
        }
        _ => {
            // Sums of any size; the rest is within its bounds.
            for place in (3..STUDY_LENGTH).filter(|&place| !is_unsigned(place)) {
                if rng.one_in(4) {
                    study[place] = any_number(rng);
                }
            }
        }
    }
}

/// Studies with any numbers, with claims and tables that are refused often; each of these answers is had often.
pub fn any_numbers(rng: &mut Rng, call: Move, wanted: &[u8]) -> Outcome {
    let n = 120_000;
    let mut answers = [0u64; 256];
    for _ in 0..n {
        let cells = rng.range(1, 2) as usize;
        let mut rates = sound_rates(rng, cells);
        let mut claim = any_claim(rng, cells);
        let mut study = passing_study(rng, &claim);
        disturb_some(rng, &mut study);
        if rng.one_in(6) {
            damage_rates(rng, &mut rates);
        }
        if rng.one_in(8) {
            damage_claim(rng, &mut claim);
        }
        let mut record = claim_record(&claim).to_vec();
        match rng.below(20) {
            0 => spoil_record(rng, &mut record),
            1 => record.truncate(rng.pick(&[0, 1, 23, 31])),
            2 => record.resize(rng.pick(&[33, 36, 64]), rng.pick(&[0, 1, 255])),
            _ => {}
        }
        answers[call(&mut study, &record, &rates)? as usize] += 1;
    }
    for &answer in wanted {
        let times = answers[answer as usize];
        same(times >= 500, true, || format!("answer {answer} only {times} times of {n}"))?;
    }
    Ok(n)
}

/// What check 1 or check 9 lets stand at a place of the list, with at most so many claims taken.
pub fn bounds_at(place: usize, most_taken: i64) -> RangeInclusive<i64> {
    match place {
        0 | 1 => 0..=Day::LAST.0 as i64,
        2 => 0..=most_taken,
        _ if is_unsigned(place) => 0..=most_at(place),
        _ => -most_at(place)..=most_at(place),
    }
}

/// A number at an end of its bounds, next to it on either side, or what 32 bits would take for a number within.
fn about(rng: &mut Rng, bounds: RangeInclusive<i64>) -> i64 {
    let (least, most) = (*bounds.start(), *bounds.end());
    let within = rng.range(0, most.min(PAST - 1));
    match rng.below(4) {
        0 => rng.pick(&[least, most, least + 1, most - 1]),
        1 | 2 => rng.pick(&[least - 1, most + 1]),
        _ => rng.pick(&[PAST, PAST + 5, PAST + within, within - PAST, PAST - 1, 1 << 31, i64::MIN, i64::MAX]),
    }
}

/// Numbers about their bounds at one place of a study, at some, or at none: days, claims taken, counts and sums equally often.
pub fn move_to_bounds(rng: &mut Rng, study: &mut [i64], most_taken: i64) {
    for _ in 0..rng.pick(&[0, 0, 1, 1, 1, 2, 3]) {
        let kind = rng.below(4);
        let place = match kind {
            0 => rng.below(2) as usize,
            1 => 2,
            _ => loop {
                let place = rng.range(SUMS_AT as i64, STUDY_LENGTH as i64 - 1) as usize;
                if is_unsigned(place) == (kind == 2) {
                    break place;
                }
            },
        };
        study[place] = about(rng, bounds_at(place, most_taken));
    }
}

pub fn has_bad_window(study: &[i64]) -> bool {
    !(0 <= study[0] && study[0] <= study[1] && study[1] <= Day::LAST.0 as i64)
}

/// Whether check 9 refuses a study, with at most so many claims taken.
pub fn is_full(study: &[i64], most_taken: i64) -> bool {
    (2..STUDY_LENGTH).any(|place| !bounds_at(place, most_taken).contains(&study[place]))
}

/// Studies with numbers about their bounds, beside faults of the claim and of the rates: the order of the checks decides, and no number is
/// taken for another. `after` has what may follow check 9.
pub fn about_bounds(rng: &mut Rng, call: Move, most_taken: i64, after: fn(&[i64]) -> &'static [u8]) -> Outcome {
    let (n, mut answers) = (120_000, [0; 256]);
    for _ in 0..n {
        let faulty = if rng.one_in(2) { Faulty::new(rng) } else { Faulty::with(rng, Vec::new()) };
        let mut study = passing_study(rng, &faulty.claim);
        // Mostly with claims and closings enough to withdraw any claim.
        if !rng.one_in(4) {
            (2..STUDY_LENGTH).filter(|&place| is_unsigned(place)).for_each(|place| study[place] = study[place].max(ENOUGH));
        }
        move_to_bounds(rng, &mut study, most_taken);
        let of_claim_and_rates = faulty.first_of(&OF_CLAIM_AND_RATES);
        let wanted = match () {
            _ if has_bad_window(&study) => &[WINDOW],
            _ if of_claim_and_rates != 0 => &[of_claim_and_rates][..],
            _ if is_full(&study, most_taken) => &[FULL],
            _ => after(&study),
        };
        let input = format!("{faulty}, study {study:?}");
        let answer = call(&mut study, &claim_record(&faulty.claim), &faulty.rates)?;
        same(wanted.contains(&answer), true, || format!("{input}: {answer}, one of {wanted:?} wanted"))?;
        answers[answer as usize] += 1;
    }
    had_often(&answers, &[&[0, WINDOW, FULL], &OF_CLAIM_AND_RATES[..]].concat())?;
    Ok(n)
}

/// Records and lists that have not the form asked for; `fresh` is the answer to a sound claim and a fresh study.
pub fn wrong_form(rng: &mut Rng, call: Move, fresh: u8) -> Outcome {
    let mut n = 0;
    let mut must = |study: &mut [i64], record: &[u8], rates: &[u32], wanted: u8| {
        n += 1;
        same(call(study, record, rates)?, wanted, || {
            format!("a study of {} numbers, a record of {} bytes {record:?}, rates of {}", study.len(), record.len(), rates.len())
        })
    };
    let example = claim_record(&closed_claim("2009-06-11", "2012-04-29", RECOVERY));
    for _ in 0..60 {
        let rates = if rng.one_in(2) { flat_rates(10_000, 5_000) } else { sound_rates(rng, 1) };
        let claim = sound_claims(rng, 1, 1)[0];
        let record = if rng.one_in(3) { example } else { claim_record(&claim) };
        let mut study = passing_study(rng, &claim);
        let (first, last) = sound_window(rng, &claim);
        let opened = Study::open(first, last).unwrap().numbers();
        must(&mut opened.to_vec(), &record, &rates, fresh)?;

        // Lists, the others sound, and with all others refused under a number.
        for length in 0..STUDY_LENGTH {
            must(&mut study[..length], &record, &rates, WRONG_FORM)?;
            must(&mut vec![rng.pick(&[-1, PAST - 1, PAST]); length], &[0; CLAIM_LENGTH], &[], WRONG_FORM)?;
        }
        for length in 0..CLAIM_LENGTH {
            must(&mut study, &record[..length], &rates, WRONG_FORM)?;
            must(&mut opened.to_vec(), &record[..length], &rates[1..], WRONG_FORM)?;
            must(&mut [rng.pick(&[-1, PAST]); STUDY_LENGTH], &record[..length], &rates, WRONG_FORM)?;
        }
        // A longer record is taken, whatever follows it.
        for length in [33, 36, 64, 512] {
            for byte in [0, 255] {
                let mut long = record.to_vec();
                long.resize(length, byte);
                must(&mut opened.to_vec(), &long, &rates, fresh)?;
            }
        }
        // Bytes that must be zero, and the bytes before them.
        for at in ZEROS_AT..CLAIM_LENGTH {
            for byte in [1, 128, 255, rng.range(1, 255) as u8] {
                let mut wrong = record;
                wrong[at] = byte;
                must(&mut study, &wrong, &rates, WRONG_FORM)?;
                must(&mut opened.to_vec(), &wrong, &[], WRONG_FORM)?;
                must(&mut [rng.pick(&[-1, PAST]); STUDY_LENGTH], &wrong, &rates, WRONG_FORM)?;
            }
        }
        let (mut benefit, mut cell) = (record, record);
        for (high, wanted) in [(0, fresh), (1, fresh), (200, fresh), (201, BENEFIT), (255, BENEFIT)] {
            benefit[ZEROS_AT - 1] = high;
            must(&mut opened.to_vec(), &benefit, &rates, wanted)?;
        }
        cell[ZEROS_AT - 2] = rng.range(1, 255) as u8;
        must(&mut opened.to_vec(), &cell, &rates, CELL)?;
        must(&mut opened.to_vec(), &record, &rates[1..], RATE_TABLE)?;
        must(&mut opened.to_vec(), &record, &[], RATE_TABLE)?;
    }
    Ok(n)
}
