//! The walk over a claim's months: it ends with the exposure, wherever window, BCD and settlement lie in the calendar.

use crate::inputs::STUDY_WINDOW;
use crate::one_input::{compare_add, compare_listing, compare_open, same};
use crate::{test, Outcome, Test};
use second::block::claim_record;
use second::calendar::{ClaimMonths, Date, Day};
use second::claim::{Claim, CLOSED, OPEN, RECOVERY, SETTLEMENT};
use second::generate::{any_code, sound_rates, sound_window};
use second::rng::Rng;
use second::study::STUDY_LENGTH;

pub const TESTS: &[Test] = &[
    test("month walk: listing", 60, listing_walk),
    test("month walk: adding", 61, adding_walk),
    test("month walk: the carrier's example, moved to every year", 62, every_year),
];

fn any_day(rng: &mut Rng, first: Day, last: Day) -> Day {
    Day(rng.range(first.0 as i64, last.0 as i64) as i32)
}

/// A day about which the walk ends: where a claim month starts, in an anniversary month often, or a day beside it.
fn month_start(rng: &mut Rng, bcd: Day) -> Day {
    let left = (Day::LAST - bcd) as i64 / 31;
    let months = if rng.one_in(2) { rng.range(0, left / 12) * 12 } else { rng.range(0, left) };
    ClaimMonths::of(bcd.date()).start(months as u32 + 1) + rng.pick(&[-1, 0, 0, 0, 1])
}

/// A window and a claim: settled about an anniversary, on BCD, before the window or after it, in its second year, or open, the window
/// reaching the calendar's end; EP 15 days or more.
fn walked(rng: &mut Rng) -> ((Date, Date), Claim) {
    let disability = any_day(rng, Day::FIRST, Day::LAST + -15);
    let longest = rng.pick(&[0, 15, 75, 350, 20_000]).min(Day::LAST - disability - 15);
    let bcd = disability + 15 + rng.range(0, longest as i64) as i32;
    let mut claim = Claim { number: 1, disability: disability.date(), bcd: bcd.date(), status: OPEN, ..Claim::default() };
    let to_the_end = |rng: &mut Rng| (any_day(rng, Day::FIRST, Day::LAST), Day::LAST);
    let mut settled = None;
    let (first, last) = match rng.below(8) {
        0 => (Day::FIRST, Day::LAST),
        1 => to_the_end(rng),
        kind => {
            let t = match kind {
                2 => bcd,
                3 => bcd + rng.range(366, 730) as i32,
                4 => any_day(rng, bcd, Day::LAST),
                _ => month_start(rng, bcd),
            };
            let t = t.clamp(bcd, Day::LAST);
            settled = Some(t);
            match rng.below(5) {
                0 => (Day::FIRST, Day::LAST),
                // From the day after the settlement on, and up to the day before it.
                1 if t < Day::LAST => (any_day(rng, t + 1, (t + 400).min(Day::LAST)), Day::LAST),
                2 if t > Day::FIRST => (any_day(rng, Day::FIRST, t + -1), t + -1),
                3 => to_the_end(rng),
                _ => {
                    let (first, last) = sound_window(rng, &Claim { termination: t.date(), ..claim });
                    (first.day_number().unwrap(), last.day_number().unwrap())
                }
            }
        }
    };
    if let Some(t) = settled {
        claim.termination = t.date();
        claim.status = CLOSED;
        claim.code = if rng.one_in(2) { SETTLEMENT } else { any_code(rng) };
    }
    ((first.date(), last.date()), claim)
}

/// Compares the listing, and holds the first one's to the exposure: its records follow each other from f to l, a duration each.
fn compare_walk((first, last): (Date, Date), claim: &Claim) -> Result<(), String> {
    let [b, e, bcd] = [first, last, claim.bcd].map(|date| date.day_number().unwrap());
    let (f, l) = (bcd.max(b), claim.termination.day_number().map_or(e, |t| t.min(e)));
    // No claim month has fewer than 28 days.
    let most = if f > l { 0 } else { (l - f) as usize / 28 + 2 };
    let (count, list) = compare_listing(first, last, claim, 6 * most)?;
    let rows = &list[..6 * count as usize];
    let (mut day, mut duration) = (f.0, rows.first().copied());
    for row in rows.chunks(6) {
        same((row[1], Some(row[0])), (day, duration), || format!("first day and duration of a month, {claim} in {first} to {last}"))?;
        (day, duration) = (row[2] + 1, duration.map(|duration| duration + 1));
    }
    let end = if f > l { f.0 } else { l.0 + 1 };
    same(day, end, || format!("the day after the last month, {claim} in {first} to {last}"))
}

fn listing_walk(rng: &mut Rng) -> Outcome {
    let n = 120_000;
    for _ in 0..n {
        let (window, claim) = walked(rng);
        compare_walk(window, &claim)?;
    }
    Ok(n)
}

fn adding_walk(rng: &mut Rng) -> Outcome {
    let mut n = 0;
    for _ in 0..200 {
        let rates = sound_rates(rng, 1);
        for _ in 0..300 {
            let ((first, last), claim) = walked(rng);
            let (_, mut study) = compare_open(first, last, STUDY_LENGTH)?;
            // The second addition starts from sums.
            for _ in 0..2 {
                same(compare_add(&mut study, &claim_record(&claim), &rates)?, 0, || format!("{claim} in {first} to {last}"))?;
                n += 1;
            }
        }
    }
    Ok(n)
}

fn every_year(rng: &mut Rng) -> Outcome {
    let mut n = 0;
    for year in 1950..=2098 {
        for code in [SETTLEMENT, RECOVERY] {
            let bcd = Date::new(year, 2, 10);
            let disability = (bcd.day_number().unwrap() + -30).date();
            let termination = Date::new(year + 1, 12, 20);
            let claim = Claim { number: 1, disability, bcd, termination, status: CLOSED, code, ..Claim::default() };
            let windows = [(Day::FIRST.date(), Day::LAST.date()), STUDY_WINDOW, sound_window(rng, &claim)];
            for window in windows {
                compare_walk(window, &claim)?;
                n += 1;
            }
        }
    }
    Ok(n)
}
