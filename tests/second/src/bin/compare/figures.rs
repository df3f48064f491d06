//! Document 01's figures to hold it to. The first implementation alone is held to the figure; the comparison runs along.

use crate::inputs::{closed_claim, date, day, flat_rates, open_claim, with_elimination, STUDY_WINDOW};
use crate::one_input::{compare_factor, compare_file_study, compare_listing, compare_reserve_factor, first_factor, LONG_LIST, REFUSED};
use crate::{test, Outcome, Test};
use second::calendar::Date;
use second::claim::{Claim, MAX_OUT, RECOVERY, SETTLEMENT};
use second::ffi;
use second::generate::claim_file;
use second::report::report;
use second::rng::Rng;
use std::fmt::Debug;

pub const TESTS: &[Test] = &[
    test("figure: leap days", 0, leap_days),
    test("figure: BCD 2011-01-29", 0, month_starts),
    test("figure: elimination periods", 0, elimination_periods),
    test("figure: BCD 2008-01-10", 0, bcd_2008_01_10),
    test("figure: BCD 2008-06-28", 0, bcd_2008_06_28),
    test("figure: seven, and eight and minus one", 0, minus_one),
    test("figure: max-out at 45 days", 0, max_out),
    test("figure: z and m", 0, z_and_m),
    test("figure: reserve factor 0.3125", 0, reserve_factor),
    test("figure: the printed example", 0, printed_example),
    test("figure: refusal lines", 0, refusal_lines),
    test("figure: the appendix's examples by its text", 0, appendix),
];

/// The first implementation's month records, or its refusal.
fn rows_in(window: (Date, Date), claim: &Claim) -> Result<Result<Vec<[i32; 6]>, u64>, String> {
    let (answer, list) = compare_listing(window.0, window.1, claim, LONG_LIST)?;
    if answer >= REFUSED {
        return Ok(Err(answer - REFUSED));
    }
    Ok(Ok(list[..answer as usize * 6].chunks_exact(6).map(|row| row.try_into().unwrap()).collect()))
}

fn rows(claim: &Claim) -> Result<Vec<[i32; 6]>, String> {
    rows_in(STUDY_WINDOW, claim)?.map_err(|refused| format!("{claim}: refused {refused}"))
}

/// The figure that document 01 gives.
fn figure<T: PartialEq + Debug>(what: &str, found: T, paper: T) -> Result<(), String> {
    if found == paper {
        Ok(())
    } else {
        Err(format!("{what}: first {found:?}, document 01 {paper:?}"))
    }
}

fn leap_days(_: &mut Rng) -> Outcome {
    let sound = Claim { maximum: date("2000-02-29"), ..open_claim("2011-01-10") };
    figure("2000-02-29", rows_in(STUDY_WINDOW, &sound)?.is_ok(), true)?;
    figure("2001-02-29", rows_in(STUDY_WINDOW, &Claim { maximum: date("2001-02-29"), ..sound })?, Err(2))?;
    figure("2001-02-29", rows_in(STUDY_WINDOW, &Claim { bcd: date("2001-02-29"), ..sound })?, Err(2))?;
    Ok(3)
}

fn month_starts(_: &mut Rng) -> Outcome {
    let starts: Vec<i32> = rows(&open_claim("2011-01-29"))?.iter().take(4).map(|row| row[1]).collect();
    let paper = ["2011-01-29", "2011-02-26", "2011-03-29", "2011-04-28"].map(|text| day(text).0);
    figure("starts", starts, paper.to_vec())?;
    Ok(1)
}

fn elimination_periods(_: &mut Rng) -> Outcome {
    figure("EP 14", rows_in(STUDY_WINDOW, &with_elimination("2011-01-10", 14))?, Err(5))?;
    for (days, duration) in [(15, 2), (44, 2), (45, 3), (90, 4), (180, 7)] {
        figure("first duration", rows(&with_elimination("2011-01-10", days))?[0][0], duration)?;
    }
    Ok(6)
}

fn bcd_2008_01_10(_: &mut Rng) -> Outcome {
    let open = rows(&open_claim("2008-01-10"))?;
    let total: i32 = open.iter().map(|row| row[3]).sum();
    figure("first, last, total", (open[0][3], open[open.len() - 1][3], total), (9, 21, 3_240))?;
    for (termination, last) in [("2012-05-20", 11), ("2012-03-29", 19)] {
        let settled = rows(&closed_claim("2008-01-10", termination, SETTLEMENT))?;
        figure("last, category", [3, 5].map(|i| settled[settled.len() - 1][i]), [last, SETTLEMENT as i32])?;
    }
    Ok(3)
}

fn bcd_2008_06_28(_: &mut Rng) -> Outcome {
    let rows = rows(&open_claim("2008-06-28"))?;
    figure("first, last", (rows[0][3], rows[rows.len() - 1][3]), (28, 2))?;
    Ok(1)
}

fn minus_one(_: &mut Rng) -> Outcome {
    let claim = closed_claim("2011-02-10", "2011-02-16", SETTLEMENT);
    let in_window = |first, last| -> Result<Vec<i32>, String> {
        let rows = rows_in((date(first), date(last)), &claim)?.map_err(|refused| format!("refused {refused}"))?;
        Ok(rows.iter().map(|row| row[3]).collect())
    };
    figure("whole", in_window("2009-01-01", "2017-12-31")?, vec![7])?;
    figure("before the cut", in_window("2009-01-01", "2011-02-15")?, vec![8])?;
    figure("after the cut", in_window("2011-02-16", "2017-12-31")?, vec![-1])?;
    Ok(3)
}

fn max_out(_: &mut Rng) -> Outcome {
    for (days, category, thirtieths) in [(46, RECOVERY, 30), (45, MAX_OUT, 11), (-45, MAX_OUT, 11), (-46, RECOVERY, 30)] {
        let claim = closed_claim("2011-02-10", "2012-05-20", RECOVERY);
        let claim = Claim { maximum: (day("2012-05-20") + days).date(), ..claim };
        let rows = rows(&claim)?;
        figure("category, thirtieths", [5, 3].map(|i| rows[rows.len() - 1][i]), [category as i32, thirtieths])?;
    }
    Ok(4)
}

fn z_and_m(_: &mut Rng) -> Outcome {
    for (e, z) in [(24_750_000_000, 500_000), (99_000_000_000, 1_000_000), (98_999_999_999, 999_999)] {
        compare_factor(2, 0, e)?;
        figure("z", first_factor(2, 0, e).z, z)?;
    }
    compare_factor(2, 1_000, 1)?;
    figure("m", first_factor(2, 1_000, 1).m, 95_143)?;
    Ok(4)
}

fn reserve_factor(_: &mut Rng) -> Outcome {
    let rates = flat_rates(500_000, 0);
    compare_reserve_factor(&rates, 0, 2, &[1_000_000; 5], 2, 0.5)?;
    let mut out = [0.0];
    ffi::reserve_factor(&rates, 0, 2, &[1_000_000; 5], 2, 0.5, &mut out);
    figure("factor", out[0], 0.3125)?;
    Ok(1)
}

/// What the program prints, from the first implementation's numbers.
fn printed(file: &[u8], rates: &[u32]) -> Result<String, String> {
    Ok(report(&compare_file_study(file, rates)?, first_factor))
}

fn printed_example(_: &mut Rng) -> Outcome {
    let claim = Claim { disability: date("2009-03-13"), ..closed_claim("2009-06-11", "2012-04-29", RECOVERY) };
    let text = printed(&claim_file(STUDY_WINDOW, &[claim], None), &flat_rates(10_000, 5_000))?;
    let paper = "group exposure rec dea set max lim exprec expdea T\n\
                 1 0 0 0 0 0 0 0 0 1000000\n\
                 2 630 0 0 0 0 0 6300000 3150000 990230\n\
                 3 420 1 0 0 0 0 4200000 2100000 1027931\n\
                 4 0 0 0 0 0 0 0 0 1000000\n\
                 5 0 0 0 0 0 0 0 0 1000000\n";
    figure("print", text.as_str(), paper)?;
    Ok(1)
}

fn refusal_lines(_: &mut Rng) -> Outcome {
    let rates = flat_rates(10_000, 5_000);
    let sound = closed_claim("2009-06-11", "2012-04-29", RECOVERY);
    let (first, last) = STUDY_WINDOW;
    let eighteenth = |claim: Claim| {
        let mut claims = vec![sound; 20];
        claims[17] = claim;
        claim_file(STUDY_WINDOW, &claims, None)
    };
    let mut part = claim_file(STUDY_WINDOW, &[sound; 20], None);
    part.push(0);
    let too_high = flat_rates(600_000, 400_001);
    let cases: [(Vec<u8>, &[u32], &str); 15] = [
        (vec![], &rates, "refused 11 block 0 claim 0\n"),
        (vec![0; 511], &rates, "refused 11 block 0 claim 0\n"),
        (vec![0; 512], &rates, "refused 1 block 0 claim 0\n"),
        (claim_file((last, first), &[sound], None), &rates, "refused 1 block 0 claim 0\n"),
        (eighteenth(Claim { bcd: date("2001-02-29"), ..sound }), &rates, "refused 2 block 2 claim 3\n"),
        (eighteenth(Claim { code: 7, ..sound }), &rates, "refused 3 block 2 claim 3\n"),
        (eighteenth(Claim { disability: date("2009-06-12"), ..sound }), &rates, "refused 4 block 2 claim 3\n"),
        (eighteenth(Claim { disability: date("2009-05-28"), ..sound }), &rates, "refused 5 block 2 claim 3\n"),
        (eighteenth(Claim { benefit: 201, ..sound }), &rates, "refused 16 block 2 claim 3\n"),
        (claim_file(STUDY_WINDOW, &[sound], None), &[], "refused 6 block 1 claim 1\n"),
        (claim_file(STUDY_WINDOW, &[sound], None), &rates[1..], "refused 6 block 1 claim 1\n"),
        (eighteenth(Claim { cell: 1, ..sound }), &rates, "refused 7 block 2 claim 3\n"),
        (claim_file(STUDY_WINDOW, &[sound], None), &too_high, "refused 8 block 1 claim 1\n"),
        (part, &rates, "refused 11 block 3 claim 0\n"),
        (claim_file(STUDY_WINDOW, &[sound], None)[512..].to_vec(), &rates, "refused 11 block 0 claim 0\n"),
    ];
    for (file, rates, line) in &cases {
        figure("print", printed(file, rates)?.as_str(), line)?;
    }
    Ok(cases.len() as u64)
}

/// Where its table does not follow its text, the text decides.
fn appendix(_: &mut Rng) -> Outcome {
    let claims = [
        (open_claim("2008-06-11"), [10, 10], [118, 20], 3_240),
        (open_claim("2009-06-11"), [4, 30], [106, 20], 3_080),
        (closed_claim("2008-06-11", "2012-04-20", MAX_OUT), [10, 10], [50, 10], 1_190),
        (closed_claim("2009-06-11", "2012-04-29", MAX_OUT), [4, 30], [38, 19], 1_039),
        (closed_claim("2009-06-11", "2012-04-29", RECOVERY), [4, 30], [38, 30], 1_050),
    ];
    for (claim, first, last, total) in &claims {
        let rows = rows(claim)?;
        figure("first duration and thirtieths", &[rows[0][0], rows[0][3]], first)?;
        let last_row = rows[rows.len() - 1];
        figure("last duration and thirtieths", &[last_row[0], last_row[3]], last)?;
        figure("total", rows.iter().map(|row| row[3]).sum::<i32>(), *total)?;
    }
    Ok(claims.len() as u64)
}
