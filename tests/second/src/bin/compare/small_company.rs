//! The small company rule: both counts about their limits and about every day, T that move by a tenth, and every refusal in its order.

use crate::faults::{Faulty, OF_CLAIM};
use crate::inputs::{any_length, any_records, spoil_record};
use crate::one_input::{compare_small_company, had_often, same, BENEFIT, BLOCK, DATE, SEQUENCE, SHORT_ELIMINATION, STATUS, WRONG_FORM};
use crate::valuation::five_t;
use crate::{test, Outcome, Test};
use second::block::{claim_record, CLAIM_LENGTH};
use second::calendar::{Date, Day};
use second::claim::{Claim, CLOSED};
use second::generate::{any_benefit, any_code, sound_claim, wild_date};
use second::rng::Rng;

pub const TESTS: &[Test] = &[
    test("small company: every valuation date", 110, every_date),
    test("small company: both counts about their limits", 111, about_limits),
    test("small company: T that move by a tenth", 112, moved),
    test("small company: claims at random", 113, random),
    test("small company: refused in the order of the checks", 114, refused),
    test("small company: long lists", 115, long),
    test("small company: lists that have not the length asked for", 116, wrong_form),
];

const SAME_T: [u64; 5] = [1_000_000, 900_000, 1_100_000, 1_200_000, 800_000];
const ONE: u64 = 1_000_000;
/// Numbers of the answer.
const OUT: usize = 9;

/// A claim disabled on a day; the last ones of the calendar leave no elimination period.
fn disabled_on(rng: &mut Rng, disability: Day) -> Claim {
    let bcd = disability + rng.range(15, 15.max((Day::LAST - disability) as i64).min(900)) as i32;
    Claim {
        number: rng.bits() as u32,
        disability: disability.date(),
        bcd: bcd.date(),
        cell: rng.bits() as u16,
        benefit: any_benefit(rng),
        ..Claim::default()
    }
}

/// The latest day on which a claim can be disabled.
const LATEST: Day = Day(54_786 - 15);

/// The day from which on a claim counts as recent, by the calendar's dates; none where it lies before 1950.
fn two_years_before(date: Date) -> Option<Day> {
    let day = if (date.month, date.day) == (2, 29) { 28 } else { date.day };
    Date::new(date.year - 2, date.month, day).day_number()
}

fn records(claims: &[Claim]) -> Vec<u8> {
    claims.iter().flat_map(claim_record).collect()
}

/// The paper's words for a claim's day: recent, earlier or neither.
fn counts(valuation: Date, disability: Day) -> [u64; 2] {
    match two_years_before(valuation) {
        _ if disability > valuation.day_number().unwrap() => [0, 0],
        Some(day) if disability < day => [0, 1],
        _ => [1, 0],
    }
}

/// Every date of the calendar with claims about it and about the day two years before.
fn every_date(rng: &mut Rng) -> Outcome {
    let mut n = 0;
    for number in 0..=Day::LAST.0 {
        let valuation = Day(number).date();
        let before = two_years_before(valuation).unwrap_or(Day::FIRST);
        let any = Day(rng.range(0, LATEST.0 as i64) as i32);
        for day in [before + -1, before, before + 1, Day(number - 1), Day(number), Day(number + 1), any] {
            let day = day.clamp(Day::FIRST, LATEST);
            let claim = disabled_on(rng, day);
            let (_, out) = compare_small_company(valuation, &claim_record(&claim), &SAME_T, &SAME_T, OUT)?;
            let [recent, earlier] = counts(valuation, day);
            same(&out, &[1, recent, earlier, 0, ONE, ONE, ONE, ONE, ONE].to_vec(), || format!("{claim}, valued {valuation}"))?;
            n += 1;
        }
    }
    Ok(n)
}

/// A valuation date, and days on which claims count as recent, as earlier and in neither.
fn any_days(rng: &mut Rng) -> (Date, [(Day, Day); 3]) {
    let valuation = Day(rng.range(800, LATEST.0 as i64 - 1) as i32);
    let before = two_years_before(valuation.date()).unwrap();
    (valuation.date(), [(before, valuation), (Day::FIRST, before + -1), (valuation + 1, LATEST)])
}

/// So many claims between two days, the days themselves often, closed ones and those of no count among them.
fn claims_between(rng: &mut Rng, (first, last): (Day, Day), count: usize) -> Vec<Claim> {
    (0..count)
        .map(|_| {
            let day = Day(rng.range(first.0 as i64, last.0 as i64) as i32);
            let day = rng.pick(&[first, last, day, day, day]);
            disabled_on(rng, day)
        })
        .collect()
}

fn closed(rng: &mut Rng, claim: Claim) -> Claim {
    Claim { status: CLOSED, termination: claim.bcd, code: any_code(rng), ..claim }
}

fn about_limits(rng: &mut Rng) -> Outcome {
    let mut n = 0;
    for _ in 0..1_000 {
        let (valuation, days) = any_days(rng);
        for (recent, earlier) in
            [(48, 199), (49, 199), (50, 199), (49, 200), (49, 201), (50, 200), (0, 199), (0, 200), (49, 0), (50, 0), (0, 0)]
        {
            let mut claims = claims_between(rng, days[0], recent);
            claims.extend(claims_between(rng, days[1], earlier));
            let later = rng.below(60) as usize;
            claims.extend(claims_between(rng, days[2], later));
            // Closed claims count in neither.
            let any = rng.pick(&days);
            for claim in claims_between(rng, any, 10) {
                claims.push(closed(rng, claim));
            }
            rng.shuffle(&mut claims);
            let (new_t, old_t) = (five_t(rng), five_t(rng));
            let (_, out) = compare_small_company(valuation, &records(&claims), &new_t, &old_t, OUT + rng.below(3) as usize)?;
            let exempt = recent < 50 && earlier < 200;
            let input = || format!("{recent} and {earlier} claims, valued {valuation}");
            same(&out[..3], &[u64::from(exempt), recent as u64, earlier as u64], input)?;
            let t = if exempt { [ONE; 5] } else { new_t };
            same((&out[4..OUT], exempt && out[3] != 0), (&t[..], false), input)?;
            n += 1;
        }
    }
    Ok(n)
}

/// A new T that differs from an old one by a tenth, or by a little more or less, up or down.
fn moved_t(rng: &mut Rng, old: u64) -> u64 {
    let tenth = old / 10 + rng.below(3) - 1.min(old / 10);
    let any = any_length(rng);
    match rng.below(8) {
        0..=2 => old.saturating_add(tenth),
        3..=5 => old.saturating_sub(tenth),
        6 => old,
        _ => rng.pick(&[0, 1, u64::MAX, any]),
    }
}

fn moved(rng: &mut Rng) -> Outcome {
    let (mut n, mut groups) = (0, [0; 6]);
    let (valuation, days) = any_days(rng);
    let claims = records(&claims_between(rng, days[0], 50));
    for _ in 0..40_000 {
        let any = any_length(rng);
        let old_t: [u64; 5] = std::array::from_fn(|_| {
            let about_one = rng.range(900_000, 1_300_000) as u64;
            rng.pick(&[0, 9, 10, 11, ONE, about_one, about_one, any, u64::MAX, u64::MAX - 5, 1 << 63, u64::MAX / 10, u64::MAX / 11])
        });
        // Groups before one that may move stay.
        let from = rng.below(6) as usize;
        let new_t: [u64; 5] = std::array::from_fn(|i| if i < from { old_t[i] } else { moved_t(rng, old_t[i]) });
        let (_, out) = compare_small_company(valuation, &claims, &new_t, &old_t, OUT)?;
        let moves = |i: usize| 10 * (new_t[i].max(old_t[i]) - new_t[i].min(old_t[i])) as u128 > old_t[i] as u128;
        let group = (0..5).find(|&i| moves(i)).map_or(0, |i| i + 1);
        same(&out[..4], &[0, 50, 0, group as u64], || format!("new T {new_t:?}, old T {old_t:?}"))?;
        same(&out[4..], &new_t[..], || format!("new T {new_t:?}"))?;
        groups[group] += 1;
        n += 1;
    }
    same(groups.iter().all(|&times| times > n / 20), true, || format!("groups {groups:?}"))?;
    Ok(n)
}

/// Claims of any kind and date, records too, and any valuation date.
fn random(rng: &mut Rng) -> Outcome {
    let (n, mut answers) = (60_000, [0; 256]);
    for _ in 0..n {
        let count = rng.below(9) as usize;
        let mut lent =
            if rng.one_in(4) { any_records(rng, count) } else { records(&(0..count).map(|_| sound_claim(rng)).collect::<Vec<_>>()) };
        match rng.below(10) {
            0 if count > 0 => {
                let at = rng.below(count as u64) as usize * CLAIM_LENGTH;
                spoil_record(rng, &mut lent[at..at + CLAIM_LENGTH]);
            }
            1 => lent.truncate(rng.below(lent.len() as u64 + 1) as usize),
            2 => lent.resize(lent.len() + rng.range(1, 31) as usize, rng.pick(&[0, 1, 255])),
            _ => {}
        }
        let valuation = if rng.one_in(3) { wild_date(rng) } else { Day(rng.range(0, Day::LAST.0 as i64) as i32).date() };
        let (answer, _) = compare_small_company(valuation, &lent, &five_t(rng), &five_t(rng), OUT + rng.below(3) as usize)?;
        answers[answer as usize] += 1;
    }
    had_often(&answers, &[0, DATE, BLOCK])?;
    Ok(n)
}

/// Some faults at once: the valuation date, then the records, then the first claim that fails.
fn refused(rng: &mut Rng) -> Outcome {
    let (n, mut answers) = (60_000, [0; 256]);
    for _ in 0..n {
        let (mut claims, mut first) = (Vec::new(), 0);
        for _ in 0..rng.range(1, 5) {
            if rng.one_in(2) {
                let faulty = Faulty::new(rng);
                if first == 0 {
                    first = faulty.first_of(&OF_CLAIM);
                }
                claims.push(faulty.claim);
            } else {
                claims.push(sound_claim(rng));
            }
        }
        let mut lent = records(&claims);
        let (mut valuation, mut wanted) = (Day(rng.range(0, Day::LAST.0 as i64) as i32).date(), first);
        if rng.one_in(4) {
            wanted = BLOCK;
            if rng.one_in(2) {
                let at = rng.below(claims.len() as u64) as usize * CLAIM_LENGTH;
                spoil_record(rng, &mut lent[at..at + CLAIM_LENGTH]);
            } else {
                lent.resize(lent.len() + rng.range(1, 31) as usize, 0);
            }
        }
        if rng.one_in(4) {
            wanted = DATE;
            valuation =
                rng.pick(&[Date::MISSING, Date::new(2001, 2, 29), Date::new(1949, 12, 31), Date::new(2100, 1, 1), Date::new(2016, 13, 1)]);
        }
        let (answer, _) = compare_small_company(valuation, &lent, &SAME_T, &SAME_T, OUT)?;
        same(answer, wanted, || format!("{} claims, the first refusal of one {first}, valued {valuation}", claims.len()))?;
        answers[answer as usize] += 1;
    }
    had_often(&answers, &[0, DATE, STATUS, SEQUENCE, BENEFIT, SHORT_ELIMINATION, BLOCK])?;
    Ok(n)
}

/// Thousands of records, with a fault in the last one or none.
fn long(rng: &mut Rng) -> Outcome {
    let n = 40;
    for i in 0..n {
        let (valuation, days) = any_days(rng);
        let numbers = [rng.range(0, 20_000) as usize, rng.range(0, 20_000) as usize];
        let mut claims = claims_between(rng, days[0], numbers[0]);
        claims.extend(claims_between(rng, days[1], numbers[1]));
        rng.shuffle(&mut claims);
        claims.push(sound_claim(rng));
        let mut lent = records(&claims);
        let last = lent.len() - CLAIM_LENGTH;
        match i % 4 {
            0 => lent[last + 31] = 1,
            1 => lent.push(0),
            2 => lent[last + 20] = 2,
            _ => {}
        }
        let (answer, _) = compare_small_company(valuation, &lent, &SAME_T, &five_t(rng), OUT)?;
        same(answer, [BLOCK, BLOCK, STATUS, 0][i as usize % 4], || format!("{} claims", claims.len()))?;
    }
    Ok(n)
}

/// 255 comes before every numbered check.
fn wrong_form(rng: &mut Rng) -> Outcome {
    let mut n = 0;
    let t = [ONE; 8];
    for _ in 0..10 {
        let claim = sound_claim(rng);
        let record = claim_record(&claim);
        for new_length in 0..=7 {
            for old_length in 0..=7 {
                for length in [0, 1, 4, 8, 9, 10, 12] {
                    let wrong = new_length != 5 || old_length != 5 || length < OUT;
                    let inputs = [(claim.bcd, &record[..], 0), (Date::MISSING, &record[..], DATE), (claim.bcd, &record[1..], BLOCK)];
                    for (valuation, lent, numbered) in inputs {
                        let (answer, _) = compare_small_company(valuation, lent, &t[..new_length], &t[..old_length], length)?;
                        let input = || format!("new T of {new_length}, old T of {old_length}, a list of {length}");
                        same(answer, if wrong { WRONG_FORM } else { numbered }, input)?;
                        n += 1;
                    }
                }
            }
        }
    }
    Ok(n)
}
