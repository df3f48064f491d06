//! Calendar and listing: every date and day, every closing, and claims at random.

use crate::inputs::{any_claims, day, with_elimination, STUDY_WINDOW};
use crate::one_input::{compare_listing, compare_record_listing, same, Answer, LONG_LIST, WRONG_FORM};
use crate::{test, Outcome, Test};
use second::block::{claim_record, CLAIM_LENGTH, ZEROS_AT};
use second::calendar::{Date, Day};
use second::claim::{Claim, CLOSED};
use second::generate::{any_benefit, any_code, damage_claim, sound_claim, sound_window, wild_date};
use second::months::listing;
use second::rng::Rng;

pub const TESTS: &[Test] = &[
    test("every year, month and day as a window", 0, all_dates),
    test("every day number", 0, all_day_numbers),
    test("every closing within 95 days of every BCD of two years", 1, all_closings),
    test("listing: sound claims", 2, sound),
    test("listing: damaged claims and windows", 3, damaged),
    test("listing: wild numbers", 4, wild),
    test("listing: lists too short by one, and longer", 5, lengths),
    test("listing: records too short, longer, and with bytes not zero", 49, record_forms),
];

fn all_dates(_: &mut Rng) -> Outcome {
    let claim = with_elimination("1950-01-20", 15);
    let mut n = 0;
    for year in (1948..=2101).chain([0, 1, 255, 256, 1_900, 2_200, 19_500, u16::MAX]) {
        for month in (0..=14).chain([255]) {
            for day in (0..=33).chain([255]) {
                let date = Date::new(year, month, day);
                // As window, and as maximum date.
                compare_listing(date, date, &claim, 6)?;
                compare_listing(STUDY_WINDOW.0, STUDY_WINDOW.0, &Claim { maximum: date, ..claim }, 6)?;
                n += 2;
            }
        }
    }
    Ok(n)
}

fn all_day_numbers(_: &mut Rng) -> Outcome {
    let last = Day::LAST.0;
    for number in 15..=last {
        // The first record of a claim, and the last day of its window.
        let (bcd, end) = (Day(number), Day((number + 70).min(last)));
        let claim = Claim { disability: Day(number - 15).date(), bcd: bcd.date(), ..Claim::default() };
        compare_listing(bcd.date(), end.date(), &claim, 24)?;
    }
    Ok(last as u64 - 14)
}

fn all_closings(rng: &mut Rng) -> Outcome {
    let mut n = 0;
    for number in day("2011-01-01").0..=day("2012-12-31").0 {
        let bcd = Day(number);
        for days in 0..=95 {
            let termination = bcd + days;
            let claim = Claim {
                disability: (bcd + -90).date(),
                bcd: bcd.date(),
                termination: termination.date(),
                status: CLOSED,
                code: any_code(rng),
                ..Claim::default()
            };
            // Whole, up to a cut, and from the cut on.
            let cut = bcd + rng.range(0, days as i64 + 1) as i32;
            compare_listing(STUDY_WINDOW.0, STUDY_WINDOW.1, &claim, 30)?;
            compare_listing(STUDY_WINDOW.0, (cut + -1).date(), &claim, 30)?;
            compare_listing(cut.date(), STUDY_WINDOW.1, &claim, 30)?;
            n += 3;
        }
    }
    Ok(n)
}

fn sound(rng: &mut Rng) -> Outcome {
    let n = 60_000;
    for _ in 0..n {
        let claim = sound_claim(rng);
        let (first, last) = sound_window(rng, &claim);
        compare_listing(first, last, &claim, LONG_LIST)?;
    }
    Ok(n)
}

fn damaged(rng: &mut Rng) -> Outcome {
    let n = 60_000;
    for _ in 0..n {
        let mut claim = sound_claim(rng);
        let (mut first, mut last) = sound_window(rng, &claim);
        match rng.below(4) {
            0 => first = wild_date(rng),
            1 => last = wild_date(rng),
            2 => (first, last) = (last, first),
            _ => {}
        }
        if !rng.one_in(4) {
            damage_claim(rng, &mut claim);
        }
        compare_listing(first, last, &claim, LONG_LIST)?;
    }
    Ok(n)
}

fn wild(rng: &mut Rng) -> Outcome {
    let n = 30_000;
    for _ in 0..n {
        let claim = Claim {
            number: rng.bits() as u32,
            disability: wild_date(rng),
            bcd: wild_date(rng),
            termination: wild_date(rng),
            maximum: wild_date(rng),
            status: if rng.one_in(4) { rng.bits() as u8 } else { rng.below(2) as u8 },
            code: if rng.one_in(4) { rng.bits() as u8 } else { rng.below(8) as u8 },
            cell: rng.bits() as u16,
            benefit: if rng.one_in(4) { rng.bits() as u8 } else { any_benefit(rng) },
        };
        let (first, last) = if rng.one_in(4) { (wild_date(rng), wild_date(rng)) } else { sound_window(rng, &claim) };
        compare_listing(first, last, &claim, LONG_LIST)?;
    }
    Ok(n)
}

fn records(first: Date, last: Date, claim: &Claim) -> usize {
    let mut list = [0; LONG_LIST];
    listing(first, last, claim, &mut list).unwrap_or(0)
}

fn lengths(rng: &mut Rng) -> Outcome {
    let mut n = 0;
    for _ in 0..6_000 {
        let claim = sound_claim(rng);
        let (first, last) = sound_window(rng, &claim);
        let needed = 6 * records(first, last, &claim);
        let any = rng.below(needed as u64 + 8) as usize;
        for length in [needed, needed + 1, needed + 6, needed.saturating_sub(1), needed.saturating_sub(6), needed / 6, any, 0] {
            compare_listing(first, last, &claim, length)?;
            n += 1;
        }
        // A refused claim leaves a short list to its own refusal.
        let mut damaged = claim;
        damage_claim(rng, &mut damaged);
        compare_listing(first, last, &damaged, needed.saturating_sub(1))?;
        n += 1;
    }
    Ok(n)
}

/// 255 comes before every numbered check, so also where window, claim or list are refused.
fn record_forms(rng: &mut Rng) -> Outcome {
    let mut n = 0;
    for _ in 0..2_000 {
        let claim = any_claims(rng, 1)[0];
        let (mut first, mut last) = sound_window(rng, &claim);
        if rng.one_in(4) {
            (first, last) = (last, first);
        }
        let length = (6 * records(first, last, &claim) + rng.below(7) as usize).saturating_sub(rng.pick(&[0, 0, 1, 7]));
        let mut must = |record: &[u8], wanted: u64| {
            n += 1;
            let (answer, _) = compare_record_listing(first, last, record, length)?;
            same(answer, wanted, || format!("listing {claim} in {first} to {last}, a record of {} bytes {record:?}", record.len()))
        };
        let record = claim_record(&claim);
        let (answer, _) = compare_listing(first, last, &claim, length)?;
        for short in [0, 1, 23, 24, 25, 30, 31, rng.below(CLAIM_LENGTH as u64) as usize] {
            must(&record[..short], u64::refused(WRONG_FORM))?;
        }
        // A longer record is taken, whatever follows it.
        for long in [33, 36, 64, 480] {
            must(&[&record[..], &vec![rng.bits() as u8; long - CLAIM_LENGTH]].concat(), answer)?;
        }
        for at in ZEROS_AT..CLAIM_LENGTH {
            for byte in [1, 128, rng.range(1, 255) as u8] {
                let mut wrong = record;
                wrong[at] = byte;
                must(&wrong, u64::refused(WRONG_FORM))?;
            }
        }
    }
    Ok(n)
}
