//! The second implementation against document 01: its figures, its table, and its rules taken literally.

use second::block::{
    claim_record, read_block, read_records, seal, write_block, write_records, write_window, Block, BLOCK_LENGTH, RECORDS_LENGTH,
};
use second::calendar::{month_length, ClaimMonths, Date, Day};
use second::claim::{Claim, CLOSED, DEATH, LIMIT, MAX_OUT, OPEN, RECOVERY, SETTLEMENT};
use second::examples::{closed_claim, date, day, flat_rates, open_claim, rows_in, with_elimination, STUDY_WINDOW};
use second::generate::{any_code, claim_file};
use second::months::{listing, Window};
use second::rates::{RateTable, CELL_LENGTH};
use second::report::{decode_rates, report};
use second::rng::Rng;
use second::run::{run_file, FileRun};
use second::study::{duration_group, Study};
use second::valuation::{factor, reserve_factor, valuation_rate, Factor};
use second::{claim::Duration, Refusal};

/// Over the window 2009-01-01 to 2017-12-31.
fn rows(claim: &Claim) -> Vec<[i32; 6]> {
    rows_in("2009-01-01", "2017-12-31", claim).unwrap()
}

fn thirtieths(rows: &[[i32; 6]]) -> Vec<i32> {
    rows.iter().map(|row| row[3]).collect()
}

fn refusal(claim: &Claim) -> Option<u8> {
    rows_in("2009-01-01", "2017-12-31", claim).err().map(Refusal::number)
}

fn printed(run: &FileRun) -> String {
    report(&run.numbers(), |group, c, e| factor(group, c, e).unwrap())
}

// Calendar

#[test]
fn every_day_of_the_calendar_walked_one_by_one() {
    let mut number = 0;
    for year in 1950..=2099 {
        for month in 1..=12 {
            let length = match month {
                2 if year % 400 == 0 || (year % 4 == 0 && year % 100 != 0) => 29,
                2 => 28,
                4 | 6 | 9 | 11 => 30,
                _ => 31,
            };
            for day in 1..=length {
                let date = Date::new(year, month, day);
                assert_eq!(date.day_number(), Some(Day(number)));
                assert_eq!(Day(number).date(), date);
                assert_eq!(Day(number).year_month(), year as i32 * 12 + month as i32 - 1);
                number += 1;
            }
            assert!(!Date::new(year, month, length + 1).is_date());
            assert!(!Date::new(year, month, 0).is_date());
        }
        assert!(!Date::new(year, 0, 1).is_date());
        assert!(!Date::new(year, 13, 1).is_date());
    }
    assert_eq!(number, 54_787);
    assert_eq!(day("2099-12-31"), Day(54_786));
    assert!(!Date::new(1949, 12, 31).is_date());
    assert!(!Date::new(2100, 1, 1).is_date());
    assert!(!Date::MISSING.is_date());
}

#[test]
fn leap_days() {
    assert!(date("2000-02-29").is_date());
    let mut claim = closed_claim("2011-01-10", "2012-05-20", SETTLEMENT);
    claim.maximum = date("2000-02-29");
    assert_eq!(refusal(&claim), None);
    claim.maximum = date("2001-02-29");
    assert_eq!(refusal(&claim), Some(2));
}

#[test]
fn claim_months_near_the_end_of_the_month() {
    let months = ClaimMonths::of(date("2011-01-29"));
    let starts: Vec<Day> = (1..=4).map(|k| months.start(k)).collect();
    assert_eq!(starts, ["2011-01-29", "2011-02-26", "2011-03-29", "2011-04-28"].map(day));
}

#[test]
fn claim_months_follow_the_rule_for_every_bcd_of_four_years() {
    for number in day("2010-12-01").0..=day("2014-12-31").0 {
        let bcd = Day(number).date();
        let months = ClaimMonths::of(bcd);
        for k in 1..=30 {
            let later = bcd.month as u32 - 1 + k - 1;
            let (year, month) = (bcd.year + (later / 12) as u16, (later % 12 + 1) as u8);
            let day = if bcd.day <= 26 { bcd.day } else { month_length(year, month) - (month_length(bcd.year, bcd.month) - bcd.day) };
            assert_eq!(Some(months.start(k)), Date::new(year, month, day).day_number());
        }
    }
}

#[test]
fn the_last_claim_month_may_end_in_january_2100() {
    for (bcd, first, left_out) in [("2099-12-10", "2099-12-10", 9), ("2099-11-28", "2099-12-29", 28), ("2099-11-01", "2099-12-01", 0)] {
        let rows = rows_in("2099-01-01", "2099-12-31", &open_claim(bcd)).unwrap();
        let last = rows.last().unwrap();
        assert_eq!((last[1], last[2], last[3]), (day(first).0, 54_786, 30 - left_out));
    }
}

// Claim

#[test]
fn elimination_period_and_first_duration() {
    assert_eq!(refusal(&with_elimination("2011-01-10", 14)), Some(5));
    for (days, duration) in [(15, 2), (44, 2), (45, 3), (90, 4), (180, 7)] {
        assert_eq!(rows(&with_elimination("2011-01-10", days))[0][0], duration);
    }
}

#[test]
fn max_out_within_45_days_of_the_maximum_date() {
    for (days, category) in [(-46, RECOVERY), (-45, MAX_OUT), (0, MAX_OUT), (45, MAX_OUT), (46, RECOVERY)] {
        let mut claim = closed_claim("2011-02-10", "2012-05-20", RECOVERY);
        claim.maximum = (day("2012-05-20") + -days).date();
        let rows = rows(&claim);
        let last = rows.last().unwrap();
        assert_eq!(last[5], category as i32);
        // A recovery reclassed max-out has no full month.
        assert_eq!(last[3], if category == RECOVERY { 30 } else { 11 });
    }
}

#[test]
fn claim_checks_in_their_order() {
    let sound = closed_claim("2011-02-10", "2012-05-20", RECOVERY);
    let bad = Date::new(2011, 2, 29);
    let cases = [
        (sound, None),
        (Claim { disability: Date::MISSING, status: 2, ..sound }, Some(2)),
        (Claim { bcd: bad, code: 9, ..sound }, Some(2)),
        (Claim { termination: Date::MISSING, ..sound }, Some(2)),
        (Claim { maximum: bad, status: 7, ..sound }, Some(2)),
        // A status above 1 asks for no termination date.
        (Claim { termination: bad, status: 2, ..sound }, Some(3)),
        (Claim { status: OPEN, ..sound }, Some(3)),
        (Claim { status: OPEN, code: 0, ..sound }, Some(3)),
        (Claim { status: OPEN, code: 0, termination: bad, ..sound }, Some(3)),
        (Claim { status: OPEN, termination: Date::MISSING, ..sound }, Some(3)),
        (Claim { status: OPEN, code: 0, termination: Date::MISSING, ..sound }, None),
        (Claim { code: 0, ..sound }, Some(3)),
        (Claim { code: 7, disability: date("2011-02-11"), ..sound }, Some(3)),
        (Claim { code: 5, ..sound }, None),
        (Claim { code: 6, ..sound }, None),
        (Claim { disability: date("2011-02-11"), ..sound }, Some(4)),
        (Claim { disability: date("2011-02-10"), ..sound }, Some(5)),
        (Claim { disability: date("2011-02-01"), termination: date("2011-02-09"), ..sound }, Some(4)),
        (Claim { termination: date("2011-02-10"), ..sound }, None),
        (Claim { number: u32::MAX, cell: u16::MAX, ..sound }, None),
    ];
    for (claim, number) in cases {
        assert_eq!(refusal(&claim), number, "{claim:?}");
    }
}

// Months of exposure

#[test]
fn open_from_2008_01_10() {
    let rows = rows(&open_claim("2008-01-10"));
    let thirtieths = thirtieths(&rows);
    assert_eq!(rows[0], [15, day("2009-01-01").0, day("2009-01-09").0, 9, 2009 * 12, 0]);
    assert_eq!(rows[1][..4], [16, day("2009-01-10").0, day("2009-02-09").0, 30]);
    assert_eq!(rows.last().unwrap()[1..], [day("2017-12-10").0, day("2017-12-31").0, 21, 2017 * 12 + 11, 0]);
    assert_eq!(thirtieths.iter().sum::<i32>(), 3_240);
}

#[test]
fn settled_on_and_before_day_27() {
    for (termination, last) in [("2012-05-20", 11), ("2012-03-29", 19)] {
        let rows = rows(&closed_claim("2008-01-10", termination, SETTLEMENT));
        assert_eq!(rows.last().unwrap()[2..4], [day(termination).0, last]);
        assert_eq!(rows.last().unwrap()[5], SETTLEMENT as i32);
        assert!(rows[..rows.len() - 1].iter().all(|row| row[5] == 0));
    }
}

#[test]
fn open_from_2008_06_28() {
    let thirtieths = thirtieths(&rows(&open_claim("2008-06-28")));
    assert_eq!((thirtieths[0], *thirtieths.last().unwrap()), (28, 2));
    assert_eq!(thirtieths.iter().sum::<i32>(), 3_240);
}

#[test]
fn minus_one_is_kept() {
    let claim = closed_claim("2011-02-10", "2011-02-16", SETTLEMENT);
    assert_eq!(thirtieths(&rows(&claim)), [7]);
    assert_eq!(thirtieths(&rows_in("2009-01-01", "2011-02-15", &claim).unwrap()), [8]);
    assert_eq!(thirtieths(&rows_in("2011-02-16", "2017-12-31", &claim).unwrap()), [-1]);
}

#[test]
fn never_31_thirtieths() {
    // 31 days from 2011-01-10 to 02-09.
    assert_eq!(thirtieths(&rows(&closed_claim("2011-01-10", "2011-02-09", SETTLEMENT))), [30]);
    assert_eq!(thirtieths(&rows(&closed_claim("2011-01-10", "2011-02-09", DEATH))), [30]);
}

/// The appendix's examples as its text has them: durations of the last months, its April begin dates and some totals are corrected.
#[test]
fn appendix_examples() {
    let claims = [
        (open_claim("2008-06-11"), [10, 10], [118, 20], 3_240),
        (open_claim("2009-06-11"), [4, 30], [106, 20], 3_080),
        (closed_claim("2008-06-11", "2012-04-20", MAX_OUT), [10, 10], [50, 10], 1_190),
        (closed_claim("2009-06-11", "2012-04-29", MAX_OUT), [4, 30], [38, 19], 1_039),
        (closed_claim("2009-06-11", "2012-04-29", RECOVERY), [4, 30], [38, 30], 1_050),
    ];
    for (claim, first, last, total) in claims {
        let rows = rows(&claim);
        let (first_row, last_row) = (rows[0], *rows.last().unwrap());
        assert_eq!([first_row[0], first_row[3]], first);
        assert_eq!([last_row[0], last_row[3]], last);
        assert_eq!(thirtieths(&rows).iter().sum::<i32>(), total);
    }
}

#[test]
fn windows_and_short_lists() {
    let claim = open_claim("2008-01-10");
    for (first, last) in [("2009-02-29", "2017-12-31"), ("2009-01-01", "2100-01-01"), ("2009-01-02", "2009-01-01"), ("0-0-0", "0-0-0")] {
        assert_eq!(rows_in(first, last, &Claim { status: 9, ..claim }), Err(Refusal::Window));
    }
    let mut list = [-7; 12];
    assert_eq!(listing(date("2009-01-01"), date("2009-02-01"), &claim, &mut list[..11]), Err(Refusal::ShortList));
    assert_eq!(list, [-7; 12]);
    assert_eq!(listing(date("2009-01-01"), date("2009-02-01"), &claim, &mut list), Ok(2));
    assert_eq!(listing(date("2008-01-01"), date("2008-01-09"), &claim, &mut []), Ok(0));
}

/// A claim of chance, mostly closed, with starts and ends near each other and near the end of the month.
fn random_claim(rng: &mut Rng) -> Claim {
    let bcd = Day(rng.range(600, 54_786) as i32);
    let mut claim = Claim { bcd: bcd.date(), disability: (bcd + -rng.range(15, 600) as i32).date(), ..Claim::default() };
    if !rng.one_in(3) {
        let most = if rng.one_in(2) { 62 } else { 4_000 };
        let termination = Day((bcd.0 + rng.range(0, most) as i32).min(54_786));
        claim.status = CLOSED;
        claim.code = any_code(rng);
        claim.termination = termination.date();
        if rng.one_in(3) {
            claim.maximum = Day((termination.0 + rng.range(-50, 50) as i32).clamp(0, 54_786)).date();
        }
    }
    claim
}

fn random_window(rng: &mut Rng, claim: &Claim) -> Window {
    let bcd = claim.bcd.day_number().unwrap();
    let mut near = || Day((bcd.0 + rng.range(-1_500, 4_500) as i32).clamp(0, 54_786));
    let (one, other) = (near(), near());
    Window { first: one.min(other), last: one.max(other) }
}

/// The rules of Months of exposure read literally: every claim month from the first on, and whether it meets f..l.
#[test]
fn months_by_the_letter() {
    let mut rng = Rng::new(101);
    for _ in 0..3_000 {
        let claim = random_claim(&mut rng);
        let window = random_window(&mut rng, &claim);
        let (b, e) = (window.first.0, window.last.0);
        let bcd = claim.bcd.day_number().unwrap().0;
        let t = claim.termination.day_number().map(|t| t.0);
        let closed_in_window = t.is_some_and(|t| b <= t && t <= e);
        let (f, l) = (bcd.max(b), t.map_or(e, |t| e.min(t)));
        let max_out = matches!((t, claim.maximum.day_number()), (Some(t), Some(max)) if (t - max.0).abs() <= 45);
        let category = if max_out { MAX_OUT } else { [0, 1, 2, 3, 4, 5, 1][claim.code as usize] };
        let first_duration = (bcd - claim.disability.day_number().unwrap().0 + 15) / 30 + 1;

        let months = ClaimMonths::of(claim.bcd);
        let mut expected = Vec::new();
        for k in 1.. {
            let s = months.start(k).0;
            if s > 54_786 || f > l {
                break;
            }
            let p = months.start(k + 1).0 - 1;
            if p < f || s > l {
                continue;
            }
            let begin = if s >= b { 0 } else { 30 - (p - b + 1) };
            let closing = closed_in_window && s <= l && l <= p;
            let until = match () {
                _ if l > p => 30,
                _ if !closed_in_window => 30 - (p - l),
                _ if category == RECOVERY || category == DEATH => 30,
                _ if claim.termination.day >= 27 => 30 - (p - l),
                _ => (l - s + 1).min(30),
            };
            let first = Day(s.max(f)).date();
            let year_month = first.year as i32 * 12 + first.month as i32 - 1;
            let record_category = if closing { category as i32 } else { 0 };
            expected.push([first_duration + k as i32 - 1, s.max(f), p.min(l), until - begin, year_month, record_category]);
        }
        let mut list = vec![0; 6 * expected.len()];
        assert_eq!(listing(window.first.date(), window.last.date(), &claim, &mut list), Ok(expected.len()), "{claim:?} {window:?}");
        assert_eq!(list, expected.concat(), "{claim:?} {window:?}");
    }
}

// Study

#[test]
fn duration_groups() {
    for (duration, group) in [(1, 1), (3, 1), (4, 2), (24, 2), (25, 3), (60, 3), (61, 4), (120, 4), (121, 5), (1_900, 5)] {
        assert_eq!(duration_group(Duration(duration)), group);
    }
}

#[test]
fn rates_by_duration() {
    // Recovery rate = duration, death rate = 1,000 + duration.
    let mut rates: Vec<u32> = (2..=480).chain(1_002..=1_480).collect();
    rates.extend(flat_rates(7, 9));
    let table = RateTable::new(&rates);
    let mut study = Study::open(date("1950-01-01"), date("2099-12-31")).unwrap();
    study.add(&closed_claim("2011-02-10", "2011-04-10", LIMIT), &table).unwrap();
    let group = study.groups[1];
    assert_eq!((group.thirtieths, group.closings), (61, [0, 0, 0, 0, 1]));
    assert_eq!((group.expected_recoveries, group.expected_deaths), (30 * 4 + 30 * 5 + 6, 30 * 1_004 + 30 * 1_005 + 1_006));

    // A duration after 480 uses 480's; the second cell has its own rates.
    let mut study = Study::open(date("1950-01-01"), date("2099-12-31")).unwrap();
    let long = Claim { disability: date("1950-01-01"), ..closed_claim("2011-02-10", "2011-02-10", DEATH) };
    study.add(&long, &table).unwrap();
    study.add(&Claim { cell: 1, ..long }, &table).unwrap();
    let group = study.groups[4];
    assert_eq!((group.thirtieths, group.closings, study.claims_taken), (60, [0, 2, 0, 0, 0], 2));
    assert_eq!((group.expected_recoveries, group.expected_deaths), (30 * (480 + 7), 30 * (1_480 + 9)));
}

#[test]
fn adding_refuses_in_the_tables_order() {
    let sound = flat_rates(400_000, 600_000);
    let mut too_high = [sound.clone(), sound.clone()].concat();
    too_high[CELL_LENGTH + 478] = 400_001;
    let mut wrapping = sound.clone();
    wrapping[3] = u32::MAX;
    let claim = open_claim("2011-02-10");
    let opened = Study::open(date("2009-01-01"), date("2017-12-31")).unwrap();
    let refused = |study: &Study, claim: &Claim, rates: &[u32]| {
        let mut after = *study;
        let refusal = after.add(claim, &RateTable::new(rates)).err().map(Refusal::number);
        assert_eq!(after == *study, refusal.is_some());
        refusal
    };
    assert_eq!(refused(&opened, &claim, &sound), None);
    for length in [0, 1, CELL_LENGTH - 1, CELL_LENGTH + 1, 1_025 * CELL_LENGTH] {
        assert_eq!(refused(&opened, &claim, &vec![0; length]), Some(6));
    }
    for cells in [64, 65, 256, 1_024] {
        assert_eq!(refused(&opened, &Claim { cell: cells - 1, ..claim }, &vec![0; cells as usize * CELL_LENGTH]), None);
        assert_eq!(refused(&opened, &Claim { cell: cells, ..claim }, &vec![0; cells as usize * CELL_LENGTH]), Some(7));
    }
    assert_eq!(refused(&opened, &Claim { cell: 1, ..claim }, &sound), Some(7));
    assert_eq!(refused(&opened, &claim, &too_high), None);
    assert_eq!(refused(&opened, &Claim { cell: 1, ..claim }, &too_high), Some(8));
    assert_eq!(refused(&opened, &claim, &wrapping), Some(8));

    // 9, and that 8 and 1 come before it.
    let mut full = opened;
    full.claims_taken = 500_000;
    assert_eq!(refused(&full, &claim, &sound), Some(9));
    assert_eq!(refused(&full, &claim, &wrapping), Some(8));
    full.claims_taken = 499_999;
    assert_eq!(refused(&full, &claim, &sound), None);
    full.window.last = Day(54_787);
    assert_eq!(refused(&full, &Claim { status: 5, ..claim }, &[]), Some(1));
    full.window = Window { first: Day(2), last: Day(1) };
    assert_eq!(refused(&full, &claim, &sound), Some(1));
    for group in 0..5 {
        for (thirtieths, expected, count, refusal) in [
            (27_000_000_000, 27_000_000_000_000_000, 500_000, None),
            (-27_000_000_000, -27_000_000_000_000_000, 0, None),
            (27_000_000_001, 0, 0, Some(9)),
            (-27_000_000_001, 0, 0, Some(9)),
            (i64::MIN, 0, 0, Some(9)),
            (0, 27_000_000_000_000_001, 0, Some(9)),
            (0, -27_000_000_000_000_001, 0, Some(9)),
            (0, 0, 500_001, Some(9)),
        ] {
            let mut study = opened;
            study.groups[group].thirtieths = thirtieths;
            study.groups[group].expected_recoveries = expected;
            study.groups[group].closings[group] = count;
            assert_eq!(refused(&study, &claim, &sound), refusal);
            study.groups[group].expected_recoveries = 0;
            study.groups[group].expected_deaths = expected;
            assert_eq!(refused(&study, &claim, &sound), refusal);
        }
    }
}

/// A claim without months is taken; two claims with one number count twice.
#[test]
fn accepted_claims_count_as_taken() {
    let rates = flat_rates(1, 1);
    let table = RateTable::new(&rates);
    let mut study = Study::open(date("2009-01-01"), date("2017-12-31")).unwrap();
    let early = closed_claim("2001-02-10", "2003-02-10", RECOVERY);
    study.add(&early, &table).unwrap();
    study.add(&early, &table).unwrap();
    assert_eq!(study, Study { claims_taken: 2, ..Study::open(date("2009-01-01"), date("2017-12-31")).unwrap() });
}

/// Demand 3: the studies of the parts of a window total the study of the whole.
#[test]
fn parts_of_a_window_total_the_whole() {
    let mut rng = Rng::new(102);
    let rates: Vec<u32> = (0..CELL_LENGTH).map(|_| rng.below(500_001) as u32).collect();
    let table = RateTable::new(&rates);
    for _ in 0..200 {
        let mut claims: Vec<Claim> = (0..20).map(|_| random_claim(&mut rng)).collect();
        let Window { first, last } = random_window(&mut rng, &claims[0]);
        // Every cut is the first day of a part.
        let mut cuts: Vec<i32> = (0..rng.below(9)).map(|_| rng.range(first.0 as i64, last.0 as i64) as i32).collect();
        cuts.extend([first.0, last.0 + 1]);
        cuts.sort();
        cuts.dedup();
        let mut run = |first: i32, last: i32| {
            rng.shuffle(&mut claims);
            let mut study = Study::open(Day(first).date(), Day(last).date()).unwrap();
            claims.iter().for_each(|claim| study.add(claim, &table).unwrap());
            study
        };
        let whole = run(first.0, last.0);
        let parts: Vec<Study> = cuts.windows(2).map(|part| run(part[0], part[1] - 1)).collect();
        assert!(parts.iter().all(|part| part.claims_taken == 20));
        for (i, group) in whole.groups.iter().enumerate() {
            let parts = || parts.iter().map(|part| part.groups[i]);
            assert_eq!(group.thirtieths, parts().map(|group| group.thirtieths).sum::<i64>());
            assert_eq!(group.expected_recoveries, parts().map(|group| group.expected_recoveries).sum::<i64>());
            assert_eq!(group.expected_deaths, parts().map(|group| group.expected_deaths).sum::<i64>());
            for category in 0..5 {
                assert_eq!(group.closings[category], parts().map(|group| group.closings[category]).sum::<u32>());
            }
        }
    }
}

// Valuation

#[test]
fn z_m_and_t() {
    assert_eq!(factor(2, 0, 24_750_000_000).unwrap().z, 500_000);
    assert_eq!(factor(2, 0, 99_000_000_000).unwrap().z, 1_000_000);
    assert_eq!(factor(2, 0, 98_999_999_999).unwrap().z, 999_999);
    assert_eq!(factor(2, 0, i64::MAX).unwrap().z, 1_000_000);
    assert_eq!(factor(2, 1_000, 1).unwrap().m, 95_143);
    assert_eq!(factor(2, 0, 1).unwrap().m, 150_000);
    for group in 2..=5 {
        assert_eq!(factor(group, 0, 0), Ok(Factor { z: 0, m: 150_000, t: 1_000_000 }));
        assert_eq!(factor(group, 1, i64::MIN), Ok(Factor { z: 0, m: 150_000, t: 1_000_000 }));
    }
    assert_eq!(factor(1, 500_000, 99_000_000_000), Ok(Factor { z: 0, m: 0, t: 1_000_000 }));
    assert_eq!([factor(0, 0, 0), factor(6, 0, 0), factor(255, 0, 0), factor(1, 500_001, 0)], [Err(Refusal::Valuation); 4]);
    assert!(factor(5, 500_000, 1).is_ok());
}

/// z and m by their definitions, one by one.
#[test]
fn z_and_m_by_the_letter() {
    let mut rng = Rng::new(103);
    let k = [3_300, 2_500, 2_100, 1_700u128];
    let a = [40, 30, 25, 20u128];
    for _ in 0..2_000 {
        let i = rng.below(4) as usize;
        let c = rng.range(1, 500_000) >> rng.below(19);
        let e = rng.range(1, 200_000_000_000) >> rng.below(37);
        let c = c.max(1) as u128;
        let e = e.max(1) as u128;
        let Factor { z, m, t } = factor(i as u8 + 2, c as u32, e as i64).unwrap();
        let fits = |q: u128| q <= 1_000_000 && q * q * 30 * k[i] <= 1_000_000 * e;
        assert!(fits(z as u128) && !fits(z as u128 + 1));
        let reaches = |r: u128| r * r * c * 10 >= 1_060_900_000_000 * a[i];
        let r = m as u128 - 30_000;
        assert!((r == 120_000 || reaches(r)) && (r == 0 || !reaches(r - 1)));
        let full = z as u128 * 30 * c * (1_000_000 - m as u128) / e + 1_000_000 - z as u128;
        assert_eq!(t as u128, full);
    }
}

#[test]
fn valuation_rates() {
    let rates = [flat_rates(10_000, 5_000), flat_rates(0, 0)].concat();
    let table = RateTable::new(&rates);
    assert_eq!(valuation_rate(&table, 0, 990_230, 4), Ok(14_853));
    assert_eq!(valuation_rate(&table, 0, u64::MAX, 480), Ok(1_000_000));
    assert_eq!(valuation_rate(&table, 1, u64::MAX, 2), Ok(0));
    assert_eq!(valuation_rate(&table, 0, 0, 1), Err(Refusal::Valuation));
    assert_eq!(valuation_rate(&table, 0, 0, 481), Err(Refusal::Valuation));
    assert_eq!(valuation_rate(&table, 2, 0, 481), Err(Refusal::Cell));
    for cell in [255, 256, 257, 65_536, 1 << 24, u32::MAX] {
        assert_eq!(valuation_rate(&table, cell, 1_000_000, 2), Err(Refusal::Cell));
    }
    assert_eq!(valuation_rate(&RateTable::new(&rates[1..]), 2, 0, 481), Err(Refusal::RateTable));
    let high = flat_rates(1_000_000, 1);
    assert_eq!(valuation_rate(&RateTable::new(&high), 0, 0, 481), Err(Refusal::Rate));
}

#[test]
fn reserve_factors() {
    let rates = flat_rates(300_000, 200_000);
    let table = RateTable::new(&rates);
    let t = [1_000_000; 5];
    assert_eq!(reserve_factor(&table, 0, 2, &t, 2, 0.5), Ok(0.3125));
    assert_eq!(reserve_factor(&table, 0, 480, &t, 0, 1.0), Ok(0.0));
    assert_eq!(reserve_factor(&table, 0, 480, &t, 2, 1.0), Ok(0.75));
    // Each group has its own T.
    assert_eq!(reserve_factor(&table, 0, 3, &[0, 2_000_000, 0, 0, 0], 480, 1.0), Ok(1.0));
    assert_eq!(reserve_factor(&table, 0, 24, &[0, 0, 2_000_000, 0, 0], 480, 1.0), Ok(1.0));
    assert_eq!(reserve_factor(&table, 0, 60, &[0, 0, 0, 2_000_000, 0], 480, 1.0), Ok(1.0));
    assert_eq!(reserve_factor(&table, 0, 120, &[0, 0, 0, 0, 2_000_000], 480, 1.0), Ok(1.0));
    for v in [0.0, -0.0, -0.5, f64::NAN, f64::INFINITY, f64::NEG_INFINITY, 1.0 + f64::EPSILON] {
        assert_eq!(reserve_factor(&table, 0, 2, &t, 0, v), Err(Refusal::Discount));
        assert_eq!(reserve_factor(&table, 0, 2, &t, 481, v), Err(Refusal::Valuation));
    }
    assert!(reserve_factor(&table, 0, 2, &t, 480, f64::from_bits(1)).is_ok());
    assert_eq!(reserve_factor(&table, 0, 1, &t, 0, 1.0), Err(Refusal::Valuation));
    assert_eq!(reserve_factor(&table, 1, 1, &t, 0, 1.0), Err(Refusal::Cell));
}

// Claim file

#[test]
fn the_printed_example() {
    let claim = Claim { disability: date("2009-03-13"), ..closed_claim("2009-06-11", "2012-04-29", RECOVERY) };
    let run = run_file(&claim_file(STUDY_WINDOW, &[claim], None), &flat_rates(10_000, 5_000));
    assert_eq!(
        printed(&run),
        "group exposure rec dea set max lim exprec expdea T\n\
         1 0 0 0 0 0 0 0 0 1000000\n\
         2 630 0 0 0 0 0 6300000 3150000 990230\n\
         3 420 1 0 0 0 0 4200000 2100000 1027931\n\
         4 0 0 0 0 0 0 0 0 1000000\n\
         5 0 0 0 0 0 0 0 0 1000000\n"
    );
}

#[test]
fn refused_runs() {
    let rates = flat_rates(10_000, 5_000);
    let (first, last) = (date("2009-01-01"), date("2017-12-31"));
    let sound = closed_claim("2009-06-11", "2012-04-29", RECOVERY);
    let line = |file: &[u8], rates: &[u32]| printed(&run_file(file, rates));
    assert_eq!(line(&[], &rates), "refused 11 block 0 claim 0\n");
    assert_eq!(line(&[0; 511], &rates), "refused 11 block 0 claim 0\n");

    // A bad window; the study is the one of a refused opening.
    let file = claim_file((last, first), &[sound], None);
    assert_eq!(line(&file, &rates), "refused 1 block 0 claim 0\n");
    assert_eq!(run_file(&file, &rates).study, Study::unopened());
    assert_eq!(run_file(&[], &rates).study, Study::unopened());

    // Without claims no rates are asked for.
    assert_eq!(run_file(&claim_file((first, last), &[], None), &[]).refused, 0);
    assert_eq!(line(&claim_file((first, last), &[sound], None), &[]), "refused 6 block 1 claim 1\n");

    // The 18th claim is the third of block 2; the claims before it stay in.
    let mut claims = vec![sound; 20];
    claims[17].code = 7;
    let mut file = claim_file((first, last), &claims, None);
    let run = run_file(&file, &rates);
    assert_eq!(printed(&run), "refused 3 block 2 claim 3\n");
    assert_eq!((run.study.claims_taken, run.study.groups[2].closings[0]), (17, 17));
    // A part block at the end comes after it; in a sound file it is refused under the number due.
    file.push(0);
    assert_eq!(line(&file, &rates), "refused 3 block 2 claim 3\n");
    let mut file = claim_file((first, last), &vec![sound; 20], None);
    file.push(0);
    assert_eq!(line(&file, &rates), "refused 11 block 3 claim 0\n");
    assert_eq!(run_file(&file, &rates).study.claims_taken, 20);
}

#[test]
fn the_half_millionth_claim_is_the_last() {
    let claim = closed_claim("2001-02-10", "2001-02-10", RECOVERY);
    let mut file = claim_file(STUDY_WINDOW, &vec![claim; 500_000], None);
    let rates = flat_rates(0, 0);
    assert_eq!(run_file(&file, &rates).refused, 0);
    let mut block = [0; BLOCK_LENGTH];
    write_block(33_335, &[claim], &mut block).unwrap();
    file.extend(block);
    let run = run_file(&file, &rates);
    assert_eq!((run.refused, run.block, run.place, run.study.claims_taken), (9, 33_335, 1, 500_000));
}

#[test]
fn the_block_number_is_counted_past_65535() {
    let mut file = claim_file(STUDY_WINDOW, &[], None);
    for number in 1..=65_535 {
        let mut block = [0; BLOCK_LENGTH];
        write_block(number, &[], &mut block).unwrap();
        file.extend(block);
    }
    assert_eq!(run_file(&file, &[]).refused, 0);
    file.extend_from_within(..BLOCK_LENGTH);
    let run = run_file(&file, &[]);
    assert_eq!((run.refused, run.block, run.place), (11, 65_536, 0));
}

#[test]
fn every_byte_of_a_block_is_checked() {
    let claim = closed_claim("2009-06-11", "2012-04-29", RECOVERY);
    let mut block = [0; BLOCK_LENGTH];
    write_block(258, &[claim, Claim { number: 0x0403_0201, cell: 0x03c8, ..claim }], &mut block).unwrap();
    assert_eq!(block[..3], [2, 1, 2]);
    assert_eq!(block[16 + 32..][..12], [1, 2, 3, 4, 217, 7, 3, 13, 217, 7, 6, 11]);
    assert_eq!(block[16 + 32 + 12..][..12], [220, 7, 4, 29, 0, 0, 0, 0, 1, 1, 200, 3]);
    let Ok(Block::Claims(read)) = read_block(&block, 258) else { panic!() };
    assert_eq!((read.count, read.claims[0], read.claims[1].cell, read.claims[2]), (2, claim, 0x03c8, Claim::default()));
    assert_eq!(read_block(&block, 65_536 + 258), Err(Refusal::Block));
    assert_eq!(read_block(&block[..511], 258), Err(Refusal::Block));
    for at in 0..BLOCK_LENGTH {
        for bit in 0..8 {
            let mut damaged = block;
            damaged[at] ^= 1 << bit;
            assert_eq!(read_block(&damaged, 258), Err(Refusal::Block), "{at} {bit}");
            // With the check set right only claim fields may differ, and the count within the claims there are.
            seal(&mut damaged);
            let place = (at + 16) % 32;
            let field = (16..80).contains(&at) && place < 25;
            let more_claims = at == 2 && (2 ^ (1 << bit)) > 2 && (2 ^ (1 << bit)) <= 15;
            assert_eq!(read_block(&damaged, 258).is_ok(), field || more_claims || at >= 510, "{at} {bit}");
        }
    }
}

#[test]
fn block_0() {
    let mut block = [9; BLOCK_LENGTH];
    write_window(date("2009-01-01"), date("2017-12-31"), &mut block).unwrap();
    assert_eq!(block[..24], [0, 0, 0, 0, 0, 0, 0, 0, 0, 0, 0, 0, 0, 0, 0, 0, 217, 7, 1, 1, 225, 7, 12, 31]);
    assert_eq!(read_block(&block, 0), Ok(Block::Window(date("2009-01-01"), date("2017-12-31"))));
    assert_eq!(read_block(&block, 1), Err(Refusal::Block));
    for at in (0..16).chain(24..510) {
        let mut damaged = block;
        damaged[at] = 1;
        seal(&mut damaged);
        assert_eq!(read_block(&damaged, 0), Err(Refusal::Block));
    }
    assert_eq!(write_window(Date::MISSING, Date::MISSING, &mut block[1..]), Err(Refusal::Block));
}

#[test]
fn writing_refuses_without_a_trace() {
    let mut block = [9; BLOCK_LENGTH];
    for (number, count) in [(0, 0), (0, 1), (1, 16), (65_536, 0), (u32::MAX, 1)] {
        assert_eq!(write_block(number, &vec![Claim::default(); count], &mut block), Err(Refusal::Block));
    }
    assert_eq!(write_block(1, &[], &mut block[1..]), Err(Refusal::Block));
    assert_eq!(block, [9; BLOCK_LENGTH]);
    assert_eq!(write_block(65_535, &[Claim::default(); 15], &mut block), Ok(()));
}

#[test]
fn blocks_of_records() {
    let claim = closed_claim("2009-06-11", "2012-04-29", RECOVERY);
    let records = [claim_record(&claim), claim_record(&Claim { number: u32::MAX, cell: u16::MAX, ..claim })].concat();
    let (mut block, mut by_claims) = ([9; BLOCK_LENGTH], [9; BLOCK_LENGTH]);
    assert_eq!(write_records(258, &records, &mut block), Ok(()));
    write_block(258, &[claim, Claim { number: u32::MAX, cell: u16::MAX, ..claim }], &mut by_claims).unwrap();
    assert_eq!(block, by_claims);
    let mut read = [9; RECORDS_LENGTH];
    assert_eq!(read_records(&block, 258, &mut read), Ok(2));
    assert_eq!((&read[..64], &read[64..]), (&records[..], &[9; RECORDS_LENGTH - 64][..]));
    assert_eq!(write_records(1, &records.repeat(7)[..480 - 32], &mut block), Ok(()));

    // Refused without a trace: another number due, block 0, a part of a record, a byte that must be zero, a 16th claim.
    let before = block;
    read = [9; RECORDS_LENGTH];
    assert_eq!(read_records(&block, 2, &mut read), Err(Refusal::Block));
    let mut block_0 = [0; BLOCK_LENGTH];
    write_window(date("2009-01-01"), date("2017-12-31"), &mut block_0).unwrap();
    assert_eq!(read_records(&block_0, 0, &mut read), Err(Refusal::Block));
    assert_eq!(read, [9; RECORDS_LENGTH]);
    for length in (1..64).filter(|length| length % 32 != 0) {
        assert_eq!(write_records(1, &records[..length], &mut block), Err(Refusal::Block));
    }
    for at in (25..32).chain(57..64) {
        let mut wrong = records.clone();
        wrong[at] = 1;
        assert_eq!(write_records(1, &wrong, &mut block), Err(Refusal::Block));
    }
    assert_eq!(write_records(1, &records.repeat(8), &mut block), Err(Refusal::Block));
    assert_eq!(block, before);
}

#[test]
fn the_rates_file() {
    assert_eq!(decode_rates(&[1, 2, 0, 0, 0, 0, 0, 255]), [513, 0xff00_0000]);
    assert!(decode_rates(&[0; 7]).is_empty());
    assert_eq!(decode_rates(&vec![0; 16 * 958 * 4]).len(), 16 * 958);
    assert!(decode_rates(&vec![0; 16 * 958 * 4 + 4]).is_empty());
}
