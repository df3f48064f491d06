//! The sums of each duration of a claim file, as the design of the calls describes them.

use second::calendar::{Date, Day};
use second::claim::{Claim, LIMIT, RECOVERY, SETTLEMENT};
use second::durations::{rows_in, run_durations, run_prepared_durations, DurationRun, MOST_ROWS};
use second::examples::{closed_claim, date, flat_rates, open_claim, with_elimination, STUDY_WINDOW};
use second::generate::{any_cell, claim_file, damage_claim, damage_file, damage_rates, sound_claim, sound_rates, sound_window};
use second::rates::{prepare, CELL_LENGTH, DURATIONS};
use second::rng::Rng;
use second::run::run_file;
use second::study::{GroupSums, GROUP_LENGTH};

type Row = [i64; GROUP_LENGTH];
const NOTHING: Row = [0; GROUP_LENGTH];

fn rows(run: &DurationRun) -> Vec<Row> {
    run.rows.iter().map(GroupSums::numbers).collect()
}

/// The rows of a file that isn't refused, 1 to `n`.
fn rows_of(window: (Date, Date), claims: &[Claim], rates: &[u32], n: usize) -> Vec<Row> {
    let run = run_durations(&claim_file(window, claims, None), rates, n);
    assert_eq!((run.refused, run.block, run.place, run.claims_taken, run.rows.len()), (0, 0, 0, claims.len() as u32, n));
    rows(&run)
}

fn total(rows: &[Row]) -> Row {
    std::array::from_fn(|i| rows.iter().map(|row| row[i]).sum())
}

/// Rates of one cell that are the duration, and twice the duration.
fn rates_by_duration() -> Vec<u32> {
    (2..=480).chain((2..=480).map(|duration| 2 * duration)).collect()
}

fn prepared(rates: &[u32]) -> Vec<u32> {
    let mut table = [rates, &[0]].concat();
    let _ = prepare(&mut table);
    table
}

#[test]
fn lengths_of_4_and_8_for_each_row() {
    assert_eq!([12, 20, 196, 4 + 8 * 1_999, 16_004].map(rows_in), [Some(1), Some(2), Some(24), Some(1_999), Some(2_000)]);
    let sound: Vec<usize> = (0..20_000).filter(|&length| rows_in(length).is_some()).collect();
    assert_eq!(sound, (1..=2_000).map(|n| 4 + 8 * n).collect::<Vec<_>>());
    assert_eq!(rows_in(usize::MAX), None);
}

/// Document 01's printed example: 35 months of durations 4 to 38, recovered in the last.
#[test]
fn the_printed_example() {
    let claim = Claim { number: 7, ..closed_claim("2009-06-11", "2012-04-29", RECOVERY) };
    assert_eq!(claim.disability, date("2009-03-13"));
    let of = |n: usize| rows_of(STUDY_WINDOW, &[claim], &flat_rates(10_000, 5_000), n);
    let month = [30, 0, 0, 0, 0, 0, 300_000, 150_000];
    let closing = [30, 1, 0, 0, 0, 0, 300_000, 150_000];
    for n in [39, 120, 121, 480, 2_000] {
        for (row, duration) in of(n).into_iter().zip(1..) {
            let wanted = match duration {
                4..=37 => month,
                38 => closing,
                _ => NOTHING,
            };
            assert_eq!(row, wanted, "duration {duration} of {n}");
        }
    }
    // The last row has all later durations: 24 to 38 are 15 months, 38 alone is one.
    assert_eq!(of(38)[37], closing);
    assert_eq!((of(24)[22], of(24)[23]), (month, [450, 1, 0, 0, 0, 0, 4_500_000, 2_250_000]));
    let all = [1_050, 1, 0, 0, 0, 0, 10_500_000, 5_250_000];
    assert_eq!((of(1), of(2)), (vec![all], vec![NOTHING, all]));
    // Group 2 and group 3, as the program prints them.
    let printed = of(120);
    assert_eq!(total(&printed[3..24]), [630, 0, 0, 0, 0, 0, 6_300_000, 3_150_000]);
    assert_eq!(total(&printed[24..60]), [420, 1, 0, 0, 0, 0, 4_200_000, 2_100_000]);
}

/// BCD 2011-02-10 settled 2011-02-16: 7 thirtieths at duration 4; cut after 02-15, 8 and −1.
#[test]
fn a_month_cut_the_day_before_it_closes() {
    let claim = closed_claim("2011-02-10", "2011-02-16", SETTLEMENT);
    let in_window = |first: &str, last: &str| rows_of((date(first), date(last)), &[claim], &rates_by_duration(), 5);
    let whole = in_window("2009-01-01", "2017-12-31");
    let parts = [in_window("2009-01-01", "2011-02-15"), in_window("2011-02-16", "2017-12-31")];
    assert_eq!(whole, [NOTHING, NOTHING, NOTHING, [7, 0, 0, 1, 0, 0, 28, 56], NOTHING]);
    assert_eq!((parts[0][3], parts[1][3]), ([8, 0, 0, 0, 0, 0, 32, 64], [-1, 0, 0, 1, 0, 0, -4, -8]));
}

/// Several claims at one duration, of two cells, and a duration past 480 that uses its rates.
#[test]
fn claims_of_one_duration_add_up() {
    let rates = [rates_by_duration(), flat_rates(1_000, 2_000)].concat();
    // EP 15 starts at duration 2 and EP 45 at 3; both are exposed for two months and reach the limit in the second.
    let [early, late] = [15, 45].map(|days| Claim {
        termination: date("2011-03-20"),
        status: 1,
        code: LIMIT,
        benefit: 200,
        ..with_elimination("2011-02-10", days)
    });
    let claims = [early, late, Claim { cell: 1, ..early }];
    // March 10 to 20 counts 11 thirtieths. By count only: benefits weigh nothing.
    let wanted = [
        NOTHING,
        [60, 0, 0, 0, 0, 0, 30 * 2 + 30 * 1_000, 30 * 4 + 30 * 2_000],
        [30 + 22, 0, 0, 0, 0, 2, 41 * 3 + 11 * 1_000, 41 * 6 + 11 * 2_000],
        [11, 0, 0, 0, 0, 1, 44, 88],
        NOTHING,
    ];
    assert_eq!(rows_of(STUDY_WINDOW, &claims, &rates, 5), wanted);
    let last = total(&wanted[2..]);
    assert_eq!(rows_of(STUDY_WINDOW, &claims, &rates, 3), [wanted[0], wanted[1], last]);

    // 44 years and more after disability: months at durations from 541 on.
    let old = with_elimination("2011-02-10", 540 * 30);
    let window = (date("2011-02-10"), date("2011-04-09"));
    let month = [30, 0, 0, 0, 0, 0, 30 * 480, 60 * 480];
    let far = rows_of(window, &[old], &rates, 2_000);
    assert_eq!((total(&far[..540]), far[540], far[541], total(&far[542..])), (NOTHING, month, month, NOTHING));
    assert_eq!(rows_of(window, &[old], &rates, 480)[479], total(&[month, month]));
}

#[test]
fn a_refused_run_gives_the_rows_so_far() {
    let rates = flat_rates(10_000, 5_000);
    let claim = closed_claim("2009-06-11", "2012-04-29", RECOVERY);
    let mut claims = vec![claim; 20];
    claims[16] = Claim { code: 9, ..claim };
    let file = claim_file(STUDY_WINDOW, &claims, None);
    let run = run_durations(&file, &rates, 60);
    assert_eq!((run.refused, run.block, run.place, run.claims_taken), (3, 2, 2, 16));
    assert_eq!(rows(&run), rows_of(STUDY_WINDOW, &claims[..16], &rates, 60));
    assert_eq!(run.numbers()[..4], [3, 2, 2, 16]);
    assert_eq!(run.numbers()[4 + 8 * 37..4 + 8 * 38], [16 * 30, 16, 0, 0, 0, 0, 16 * 300_000, 16 * 150_000]);

    // A damaged block, a table that isn't one, and runs without a study.
    let mut damaged = file.clone();
    damaged[1_024 + 20] ^= 1;
    let run = run_durations(&damaged, &rates, 60);
    assert_eq!((run.refused, run.block, run.place, run.claims_taken), (11, 2, 0, 15));
    assert_eq!(rows(&run), rows_of(STUDY_WINDOW, &claims[..15], &rates, 60));
    let bad_window = claim_file((STUDY_WINDOW.1, STUDY_WINDOW.0), &claims, None);
    for (file, rates, numbers) in [
        (&file[..], &rates[1..], [6, 1, 1, 0]),
        (&bad_window, &rates, [1, 0, 0, 0]),
        (&file[1..], &rates, [11, 0, 0, 0]),
        (&[], &rates, [11, 0, 0, 0]),
        (&file[..511], &rates, [11, 0, 0, 0]),
    ] {
        let mut wanted = numbers.to_vec();
        wanted.resize(4 + 8 * 60, 0);
        assert_eq!(run_durations(file, rates, 60).numbers(), wanted);
    }
}

/// Files sound and damaged: the file run's answers, its groups by their durations, and the prepared table's rows the same.
#[test]
fn the_rows_of_a_groups_durations_total_the_group() {
    let mut rng = Rng::new(301);
    let mut met = [0; 17];
    for _ in 0..3_000 {
        let cells = rng.range(1, 3) as usize;
        let mut rates = sound_rates(&mut rng, cells);
        let count = rng.range(1, 20) as usize;
        let mut claims: Vec<Claim> = (0..count).map(|_| Claim { cell: any_cell(&mut rng, cells), ..sound_claim(&mut rng) }).collect();
        let window = sound_window(&mut rng, &claims[0]);
        if rng.one_in(4) {
            damage_claim(&mut rng, &mut claims[count / 2]);
        }
        if rng.one_in(8) {
            damage_rates(&mut rng, &mut rates);
        }
        let mut file = claim_file(window, &claims, None);
        if rng.one_in(8) {
            damage_file(&mut rng, &mut file);
        }
        let any = rng.range(1, MOST_ROWS as i64) as usize;
        let n = rng.pick(&[1, 2, 3, 4, 24, 25, 60, 120, 121, 480, 1_999, 2_000, any]);
        let (run, study) = (run_durations(&file, &rates, n), run_file(&file, &rates));
        assert_eq!((run.refused, run.block, run.place), (study.refused, study.block, study.place));
        assert_eq!(run.claims_taken, study.study.claims_taken);
        assert_eq!(run, run_prepared_durations(&file, &prepared(&rates), n));

        let groups: Vec<Row> = study.study.groups.iter().map(GroupSums::numbers).collect();
        assert_eq!(total(&rows(&run)), total(&groups));
        for (group, durations) in groups.iter().zip([0..3, 3..24, 24..60, 60..120, 120..MOST_ROWS]) {
            // The last row may have durations of later groups too.
            if durations.end < n || (durations.start == 120 && n > 120) {
                assert_eq!(total(&rows(&run)[durations.start..durations.end.min(n)]), *group);
            }
        }
        met[run.refused as usize] += 1;
    }
    assert!([0, 2, 3, 6, 7, 11].iter().all(|&number| met[number] >= 20), "{met:?}");
}

#[test]
fn each_row_of_the_parts_totals_the_row_of_the_whole() {
    let mut rng = Rng::new(302);
    for _ in 0..300 {
        let rates = sound_rates(&mut rng, 2);
        let claims: Vec<Claim> = (0..12).map(|_| Claim { cell: any_cell(&mut rng, 2), ..sound_claim(&mut rng) }).collect();
        let (first, last) = sound_window(&mut rng, &claims[0]);
        let n = rng.range(1, MOST_ROWS as i64) as usize;
        let of = |first: Date, last: Date| rows_of((first, last), &claims, &rates, n);
        let [from, to] = [first, last].map(|date| date.day_number().unwrap());
        let cut = Day(rng.range(from.0 as i64, to.0 as i64) as i32);
        let mut parts = vec![of(first, cut.date())];
        if cut < to {
            parts.push(of((cut + 1).date(), last));
        }
        for (i, row) in of(first, last).iter().enumerate() {
            assert_eq!(*row, total(&parts.iter().map(|part| part[i]).collect::<Vec<_>>()), "duration {}", i + 1);
        }
    }
}

/// A list never prepared has its differences for rates, and the run is refused as the file run is.
#[test]
fn rows_with_a_list_never_prepared() {
    let mut table = vec![0; CELL_LENGTH];
    (table[2], table[3], table[DURATIONS + 2]) = (1_000_000, 400, u32::MAX);
    let file = claim_file((date("2011-02-10"), date("2011-05-09")), &[open_claim("2011-02-10")], None);
    // Durations 4, 5 and 6: up and down.
    let wanted = [[30, 0, 0, 0, 0, 0, 30_000_000, 30 * u32::MAX as i64], [30, 0, 0, 0, 0, 0, -30 * 999_600, -30 * u32::MAX as i64]];
    let rows_with = |last: u32| run_prepared_durations(&file, &[&table[..], &[last]].concat(), 2_000);
    assert_eq!(rows(&rows_with(1))[3..6], [wanted[0], wanted[1], [30, 0, 0, 0, 0, 0, -30 * 400, 0]]);
    assert_eq!(rows_with(0).numbers()[..4], [6, 1, 1, 0]);
    assert_eq!(run_prepared_durations(&file, &table, 1).numbers(), [&[6, 1, 1, 0][..], &NOTHING].concat());
}
