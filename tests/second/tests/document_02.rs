//! The second implementation against the change requests of document 02, each with its own examples.

use second::block::{claim_record, read_block, read_claim, Block};
use second::calendar::{Date, Day};
use second::claim::{Claim, Duration, CHANGE_OF_DEFINITION, CLOSED, DEATH, MAX_OUT, RECOVERY, SETTLEMENT};
use second::examples::{closed_claim, date, day, flat_rates, open_claim, rows_in, STUDY_WINDOW};
use second::generate::{claim_file, damage_claim, sound_claim, sound_rates, sound_window};
use second::months::Window;
use second::rates::{RateTable, Rates, RatesByDuration, CELL_LENGTH};
use second::report::{decode_rates, report};
use second::rng::Rng;
use second::run::{run_corrected_file, run_file, FileRun};
use second::shared_load::{load, load_claim};
use second::small_company::{small_company, SmallCompany};
use second::study::{duration_group, GroupSums, Study};
use second::valuation::{factor, reserve_limit, wanted_count, Factor, Limited};
use second::Refusal;

// No. 2: the walk over a claim's months ends with the exposure.

#[test]
fn a_claim_closed_in_its_second_year_has_23_months_wherever_it_lies() {
    for (disability, bcd, termination) in [("1950-01-11", "1950-02-10", "1951-12-20"), ("2098-01-11", "2098-02-10", "2099-12-20")] {
        let claim = Claim { disability: date(disability), ..closed_claim("2008-02-10", "2008-02-10", SETTLEMENT) };
        let claim = Claim { bcd: date(bcd), termination: date(termination), ..claim };
        let rows = rows_in("1950-01-01", "2099-12-31", &claim).unwrap();
        assert_eq!((rows.len(), rows[0][0], rows[22][0], rows[22][3], rows[22][5]), (23, 2, 24, 11, SETTLEMENT as i32));
    }
}

// No. 6: a closing at the change of definition.

#[test]
fn a_change_of_definition_is_a_recovery_with_a_full_month() {
    let claim = closed_claim("2008-01-10", "2012-05-20", CHANGE_OF_DEFINITION);
    let last = |claim: &Claim| *rows_in("2009-01-01", "2017-12-31", claim).unwrap().last().unwrap();
    assert_eq!([3, 5].map(|i| last(&claim)[i]), [30, RECOVERY as i32]);
    // Within 45 days of the maximum date still max-out.
    for (days, thirtieths, category) in [(-46, 30, RECOVERY), (-45, 11, MAX_OUT), (45, 11, MAX_OUT), (46, 30, RECOVERY)] {
        let claim = Claim { maximum: (day("2012-05-20") + days).date(), ..claim };
        assert_eq!([3, 5].map(|i| last(&claim)[i]), [thirtieths, category as i32]);
    }
    assert_eq!(rows_in("2009-01-01", "2017-12-31", &Claim { code: 7, ..claim }), Err(Refusal::Status));
}

#[test]
fn a_change_of_definition_counts_in_c() {
    let claim = Claim { disability: date("2009-03-13"), ..closed_claim("2009-06-11", "2012-04-29", CHANGE_OF_DEFINITION) };
    let numbers = |code: u8| run_file(&claim_file(STUDY_WINDOW, &[Claim { code, ..claim }], None), &flat_rates(10_000, 5_000)).numbers();
    assert_eq!(numbers(CHANGE_OF_DEFINITION), numbers(RECOVERY));
    assert!(report(&numbers(CHANGE_OF_DEFINITION), |group, c, e| factor(group, c, e).unwrap())
        .contains("\n3 420 1 0 0 0 0 4200000 2100000 1027931\n"));
}

// No. 4: cells of two bytes.

#[test]
fn the_cell_has_two_bytes_and_old_files_read_as_they_did() {
    let mut record = claim_record(&Claim { cell: 0x0201, ..open_claim("2011-02-10") });
    assert_eq!(record[22..24], [1, 2]);
    for (bytes, cell) in [([200, 0], 200), ([255, 3], 1_023), ([255, 255], u16::MAX)] {
        record[22..24].copy_from_slice(&bytes);
        assert_eq!(read_claim(&record).unwrap().cell, cell);
    }
    for at in 25..32 {
        let mut wrong = record;
        wrong[at] = 1;
        assert_eq!(read_claim(&wrong), None);
    }
}

#[test]
fn a_table_has_up_to_1024_cells() {
    let mut rates = vec![0; 1_024 * CELL_LENGTH];
    rates[1_023 * CELL_LENGTH..].fill(7);
    let file = |cell: u16| claim_file(STUDY_WINDOW, &[Claim { cell, ..open_claim("2011-02-10") }], None);
    let refused = |cell: u16, cells: usize| run_file(&file(cell), &vec![0; cells * CELL_LENGTH]).refused;
    assert_eq!([(63, 64), (64, 65), (256, 257), (1_023, 1_024)].map(|(cell, cells)| refused(cell, cells)), [0; 4]);
    assert_eq!([(64, 64), (65, 65), (256, 1), (1_024, 1_024), (u16::MAX, 1_024)].map(|(cell, cells)| refused(cell, cells)), [7; 5]);
    assert_eq!([0, 1_025].map(|cells| refused(0, cells)), [6; 2]);
    let groups = run_file(&file(1_023), &rates).study.groups;
    assert_eq!(groups[1].expected_recoveries, 7 * groups[1].thirtieths);
    // The program still takes 16.
    assert!(decode_rates(&vec![0; 17 * CELL_LENGTH * 4]).is_empty());
}

// No. 7: weighting by benefit.

#[test]
fn the_benefit_has_byte_24_and_0_is_kept() {
    let claim = closed_claim("2011-02-10", "2012-05-20", RECOVERY);
    for benefit in 0..=255 {
        let record = claim_record(&Claim { benefit, ..claim });
        assert_eq!((record[24], &record[25..]), (benefit, &[0; 7][..]));
        assert_eq!(read_claim(&record), Some(Claim { benefit, ..claim }));
    }
}

#[test]
fn a_benefit_over_200_is_refused_between_sequence_and_short_elimination() {
    let sound = closed_claim("2011-02-10", "2012-05-20", RECOVERY);
    let (bad, rates) = (Date::new(2011, 2, 29), flat_rates(1, 1));
    for (benefit, number) in [(0, None), (1, None), (200, None), (201, Some(16)), (255, Some(16))] {
        let high = number.is_some();
        let cases = [
            (sound, number),
            (Claim { maximum: bad, ..sound }, Some(2)),
            (Claim { code: 7, ..sound }, Some(3)),
            (Claim { disability: date("2011-02-11"), ..sound }, Some(4)),
            (Claim { disability: date("2011-02-10"), ..sound }, if high { Some(16) } else { Some(5) }),
        ];
        for (claim, number) in cases {
            let claim = Claim { benefit, ..claim };
            assert_eq!(rows_in("2009-01-01", "2017-12-31", &claim).err().map(Refusal::number), number, "{claim}");
            let run = run_file(&claim_file(STUDY_WINDOW, &[sound, claim], None), &rates);
            assert_eq!((run.refused, run.study.claims_taken), (number.unwrap_or(0), 1 + u32::from(number.is_none())), "{claim}");
        }
        // Before the table, the cell and room are looked at.
        let refused = |study: Study, claim: Claim, rates: &[u32]| {
            let mut after = study;
            after.add(&claim, &RateTable::new(rates)).err().map(Refusal::number)
        };
        let study = Study { claims_taken: 500_000, ..Study::open(STUDY_WINDOW.0, STUDY_WINDOW.1).unwrap() };
        let claim = Claim { benefit, cell: 9, ..sound };
        let later = |later: u8| if high { Some(16) } else { Some(later) };
        assert_eq!([refused(study, claim, &[]), refused(study, claim, &rates)], [later(6), later(7)]);
        assert_eq!(refused(study, Claim { cell: 0, ..claim }, &rates), later(9));
    }
}

/// The weighted set by the letter: each month record's thirtieths, closing and expected sums times the benefit.
#[test]
fn each_share_is_multiplied_by_its_benefit() {
    let mut rng = Rng::new(104);
    for _ in 0..300 {
        let rates = sound_rates(&mut rng, 4);
        let table = RateTable::new(&rates);
        let claims: Vec<Claim> = (0..10).map(|_| sound_claim(&mut rng)).collect();
        let (first, last) = sound_window(&mut rng, &claims[0]);
        let mut study = Study::open(first, last).unwrap();
        let (mut counted, mut weighted) = ([GroupSums::default(); 5], [GroupSums::default(); 5]);
        for claim in &claims {
            study.add(claim, &table).unwrap();
            let weight = if claim.benefit == 0 { 1 } else { claim.benefit };
            for row in rows_in(&first.to_string(), &last.to_string(), claim).unwrap() {
                let duration = Duration(row[0] as u32);
                let (recovery, death) = table.cell(claim.cell.into()).ok().unwrap().at(duration);
                for (groups, weight) in [(&mut counted, 1), (&mut weighted, weight)] {
                    let (group, thirtieths) = (&mut groups[duration_group(duration) - 1], row[3] as i64 * weight as i64);
                    group.thirtieths += thirtieths;
                    group.expected_recoveries += thirtieths * recovery;
                    group.expected_deaths += thirtieths * death;
                    if row[5] != 0 {
                        group.closings[row[5] as usize - 1] += weight as u32;
                    }
                }
            }
        }
        assert_eq!((study.groups, study.weighted, study.claims_taken), (counted, weighted, 10));
    }
}

#[test]
fn a_benefit_of_0_weighs_as_1() {
    let rates = flat_rates(10_000, 5_000);
    let sums = |benefit: u8| {
        let claim = Claim { benefit, ..closed_claim("2009-06-11", "2012-04-29", RECOVERY) };
        run_file(&claim_file(STUDY_WINDOW, &[claim; 3], None), &rates).study
    };
    let old = sums(0);
    assert_eq!((old.weighted, old), (old.groups, sums(1)));
    assert_eq!((old.weighted[1].thirtieths, old.weighted[2].thirtieths, old.weighted[2].closings), (3 * 630, 3 * 420, [3, 0, 0, 0, 0]));
    let high = sums(200);
    assert_eq!((high.groups, high.weighted[2].closings), (old.groups, [600, 0, 0, 0, 0]));
    assert_eq!((high.weighted[2].expected_recoveries, high.weighted[2].expected_deaths), (600 * 4_200_000, 600 * 2_100_000));
}

#[test]
fn the_weighted_set_has_room_for_200_times_as_much() {
    let rates = flat_rates(400_000, 600_000);
    let table = RateTable::new(&rates);
    let claim = closed_claim("2011-02-10", "2012-05-20", RECOVERY);
    let opened = Study::open(STUDY_WINDOW.0, STUDY_WINDOW.1).unwrap();
    let refused = |set: &dyn Fn(&mut GroupSums), group: usize| {
        let mut study = opened;
        set(&mut study.weighted[group]);
        let before = study;
        let refusal = study.add(&claim, &table).err().map(Refusal::number);
        assert_eq!(study == before, refusal.is_some());
        refusal
    };
    for group in 0..5 {
        for side in [1, -1] {
            for (beyond, number) in [(0, None), (1, Some(9))] {
                let thirtieths = side * (5_400_000_000_000 + beyond);
                let expected = side * (5_400_000_000_000_000_000 + beyond);
                assert_eq!(refused(&|sums| sums.thirtieths = thirtieths, group), number);
                assert_eq!(refused(&|sums| sums.expected_recoveries = expected, group), number);
                assert_eq!(refused(&|sums| sums.expected_deaths = expected, group), number);
            }
        }
        for category in 0..5 {
            for (sum, number) in [(100_000_000, None), (100_000_001, Some(9)), (u32::MAX, Some(9))] {
                assert_eq!(refused(&|sums| sums.closings[category] = sum, group), number);
            }
        }
    }
}

#[test]
fn z_m_and_t_remain_by_count() {
    let rates = flat_rates(10_000, 5_000);
    let claim = closed_claim("2009-06-11", "2012-04-29", RECOVERY);
    let printed = |benefits: &[u8]| {
        let claims: Vec<Claim> = benefits.iter().map(|&benefit| Claim { benefit, ..claim }).collect();
        report(&run_file(&claim_file(STUDY_WINDOW, &claims, None), &rates).numbers(), |group, c, e| factor(group, c, e).unwrap())
    };
    assert_eq!(printed(&[0, 7, 200]), printed(&[0; 3]));
}

/// Demand 3 for the weighted sums too.
#[test]
fn the_weighted_sums_of_the_parts_total_those_of_the_whole() {
    let mut rng = Rng::new(105);
    for _ in 0..200 {
        let rates = sound_rates(&mut rng, 4);
        let table = RateTable::new(&rates);
        let claims: Vec<Claim> = (0..20).map(|_| sound_claim(&mut rng)).collect();
        let (first, last) = sound_window(&mut rng, &claims[0]);
        let run = |first: Day, last: Day| {
            let mut study = Study::open(first.date(), last.date()).unwrap();
            claims.iter().for_each(|claim| study.add(claim, &table).unwrap());
            study.numbers()
        };
        let (first, last) = (first.day_number().unwrap(), last.day_number().unwrap());
        let cut = Day(rng.range(first.0 as i64, last.0 as i64) as i32);
        let whole = run(first, last);
        let parts = if cut == last { vec![whole] } else { vec![run(first, cut), run(cut + 1, last)] };
        for place in 3..whole.len() {
            assert_eq!(whole[place], parts.iter().map(|part| part[place]).sum::<i64>(), "place {place}");
        }
    }
}

// No. 10: claims taken back.

/// The study of some claims in a window.
fn study_of((first, last): (Date, Date), claims: &[Claim], rates: &[u32]) -> Study {
    let (mut study, table) = (Study::open(first, last).unwrap(), RateTable::new(rates));
    claims.iter().for_each(|claim| study.add(claim, &table).unwrap());
    study
}

/// Withdraws, and holds a refusal to leaving the study as it was.
fn withdrawn(study: &Study, claim: &Claim, rates: &[u32]) -> Result<Study, u8> {
    let mut after = *study;
    match after.withdraw(claim, &RateTable::new(rates)) {
        Ok(()) => Ok(after),
        Err(refusal) => {
            assert_eq!(after, *study);
            Err(refusal.number())
        }
    }
}

/// Additions and withdrawals of records taken before, in any order: in each part of a window and in the whole the study is that of the
/// claims remaining, so the parts total the whole.
#[test]
fn the_study_is_that_of_the_claims_remaining() {
    let mut rng = Rng::new(106);
    for _ in 0..200 {
        let rates = sound_rates(&mut rng, 4);
        let table = RateTable::new(&rates);
        let about = sound_claim(&mut rng);
        let (first, last) = sound_window(&mut rng, &about);
        let [first, last] = [first, last].map(|date| date.day_number().unwrap());
        let cut = Day(rng.range(first.0 as i64, last.0 as i64) as i32);
        let mut windows = vec![(first, last), (first, cut)];
        if cut < last {
            windows.push((cut + 1, last));
        }
        let windows: Vec<(Date, Date)> = windows.iter().map(|(first, last)| (first.date(), last.date())).collect();
        let mut studies: Vec<Study> = windows.iter().map(|&(first, last)| Study::open(first, last).unwrap()).collect();
        let mut remaining: Vec<Claim> = Vec::new();
        for _ in 0..40 {
            let withdraws = !remaining.is_empty() && rng.one_in(2);
            let claim = match rng.below(3) {
                _ if withdraws => remaining.swap_remove(rng.below(remaining.len() as u64) as usize),
                0 => about,
                _ => sound_claim(&mut rng),
            };
            for study in &mut studies {
                if withdraws { study.withdraw(&claim, &table) } else { study.add(&claim, &table) }.unwrap();
            }
            if !withdraws {
                remaining.push(claim);
            }
        }
        for (&window, study) in windows.iter().zip(&studies) {
            assert_eq!(*study, study_of(window, &remaining, &rates));
        }
        let numbers: Vec<_> = studies.iter().map(Study::numbers).collect();
        for place in 3..numbers[0].len() {
            assert_eq!(numbers[0][place], numbers[1..].iter().map(|part| part[place]).sum::<i64>());
        }
    }
}

#[test]
fn withdrawing_checks_what_adding_does_save_that_500_000_may_be_taken() {
    let rates = flat_rates(400_000, 600_000);
    let claim = closed_claim("2011-02-10", "2012-05-20", RECOVERY);
    let one = study_of(STUDY_WINDOW, &[claim], &rates);
    let none = Study::open(STUDY_WINDOW.0, STUDY_WINDOW.1).unwrap();
    assert_eq!(withdrawn(&one, &claim, &rates), Ok(none));
    for (taken, answer) in [(0, Some(18)), (1, None), (499_999, None), (500_000, None), (500_001, Some(9)), (u32::MAX, Some(9))] {
        let study = Study { claims_taken: taken, ..one };
        assert_eq!(withdrawn(&study, &claim, &rates).err(), answer, "{taken}");
    }
    // Each check comes before 18.
    let bad = Date::new(2011, 2, 29);
    let wrong_window = Study { window: Window { first: Day(2), last: Day(1) }, ..none };
    assert_eq!(withdrawn(&wrong_window, &Claim { maximum: bad, ..claim }, &[]), Err(1));
    let short = Claim { disability: date("2011-02-10"), ..claim };
    for (claim, rates, number) in [
        (Claim { maximum: bad, code: 7, ..claim }, &rates[1..], 2),
        (Claim { code: 7, termination: date("2011-02-09"), ..claim }, &rates[1..], 3),
        (Claim { termination: date("2011-02-09"), benefit: 201, ..claim }, &rates[1..], 4),
        (Claim { benefit: 201, ..short }, &rates[1..], 16),
        (short, &rates[1..], 5),
        (Claim { cell: 1, ..claim }, &rates[1..], 6),
        (Claim { cell: 1, ..claim }, &rates[..], 7),
        (claim, &flat_rates(400_000, 600_001)[..], 8),
        (claim, &rates[..], 18),
    ] {
        assert_eq!(withdrawn(&none, &claim, rates), Err(number));
    }
    let mut full = none;
    full.weighted[4].expected_deaths = 5_400_000_000_000_000_001;
    assert_eq!(withdrawn(&full, &claim, &rates), Err(9));
    full.weighted[4].expected_deaths = 0;
    full.groups[0].closings[4] = 500_001;
    assert_eq!(withdrawn(&full, &claim, &rates), Err(9));
}

#[test]
fn no_closing_falls_below_zero() {
    let rates = flat_rates(400_000, 600_000);
    let claim = Claim { benefit: 7, ..closed_claim("2011-02-10", "2012-05-20", RECOVERY) };
    let opened = Study { claims_taken: 1, ..Study::open(STUDY_WINDOW.0, STUDY_WINDOW.1).unwrap() };
    // Closed in its 19th month, of group 2.
    for (count, sum, answer) in
        [(1, 7, None), (0, 7, Some(18)), (1, 6, Some(18)), (0, 0, Some(18)), (2, 8, None), (500_000, 100_000_000, None)]
    {
        let mut study = opened;
        (study.groups[1].closings[0], study.weighted[1].closings[0]) = (count, sum);
        let left = withdrawn(&study, &claim, &rates);
        assert_eq!(left.err(), answer);
        if let Ok(left) = left {
            assert_eq!((left.groups[1].closings[0], left.weighted[1].closings[0], left.claims_taken), (count - 1, sum - 7, 0));
        }
        // A closing of another category or group is of no use.
        (study.groups[1].closings[1], study.weighted[1].closings[1]) = (9, 90);
        (study.groups[2].closings[0], study.weighted[2].closings[0]) = (9, 90);
        assert_eq!(withdrawn(&study, &claim, &rates).err(), answer);
    }
    // A claim not closed in the window takes no closing with it, and one without months nothing but itself.
    let not_closed = Claim { benefit: 200, ..open_claim("2011-02-10") };
    assert_eq!(withdrawn(&opened, &not_closed, &rates).map(|left| left.weighted[1].thirtieths), Ok(-200 * 30 * 21));
    let early = closed_claim("2001-02-10", "2003-02-10", RECOVERY);
    assert_eq!(withdrawn(&opened, &early, &rates), Ok(Study { claims_taken: 0, ..opened }));
}

#[test]
fn a_withdrawal_may_take_a_sum_past_its_bounds() {
    let rates = flat_rates(400_000, 600_000);
    let claim = Claim { benefit: 200, ..open_claim("2011-02-10") };
    let mut study = Study { claims_taken: 500_000, ..Study::open(STUDY_WINDOW.0, STUDY_WINDOW.1).unwrap() };
    for sums in &mut study.groups {
        (sums.thirtieths, sums.expected_recoveries, sums.expected_deaths) =
            (-27_000_000_000, -27_000_000_000_000_000, -27_000_000_000_000_000);
    }
    for sums in &mut study.weighted {
        (sums.thirtieths, sums.expected_recoveries) = (-5_400_000_000_000, -5_400_000_000_000_000_000);
        sums.expected_deaths = sums.expected_recoveries;
    }
    let left = withdrawn(&study, &claim, &rates).unwrap();
    assert_eq!((left.claims_taken, left.groups[1].thirtieths), (499_999, -27_000_000_000 - 630));
    assert_eq!(left.weighted[1].expected_deaths, -5_400_000_000_000_000_000 - 200 * 630 * 600_000);
    assert_eq!(withdrawn(&left, &claim, &rates), Err(9));
}

// No. 3: pooling affiliates.

/// Joins, and holds a refusal to leaving the study as it was.
fn joined(study: &Study, other: &Study) -> Result<Study, u8> {
    let mut after = *study;
    match after.join(other) {
        Ok(()) => Ok(after),
        Err(refusal) => {
            assert_eq!(after, *study);
            Err(refusal.number())
        }
    }
}

/// In a window and in its parts: the joined study is that of both lists, and the parts' studies, joined likewise, total the whole's.
#[test]
fn the_joined_study_is_that_of_both_lists() {
    let mut rng = Rng::new(107);
    for _ in 0..200 {
        let rates = sound_rates(&mut rng, 4);
        let claims: Vec<Claim> = (0..rng.range(1, 30)).map(|_| sound_claim(&mut rng)).collect();
        let (first, last) = sound_window(&mut rng, &claims[0]);
        let (one, other) = claims.split_at(rng.below(claims.len() as u64 + 1) as usize);
        let pooled = |window: (Date, Date)| {
            let pooled = joined(&study_of(window, one, &rates), &study_of(window, other, &rates));
            assert_eq!(pooled, Ok(study_of(window, &claims, &rates)));
            pooled.unwrap().numbers()
        };
        let whole = pooled((first, last));
        let [first, last] = [first, last].map(|date| date.day_number().unwrap());
        let cut = Day(rng.range(first.0 as i64, last.0 as i64) as i32);
        let mut parts = vec![pooled((first.date(), cut.date()))];
        if cut < last {
            parts.push(pooled(((cut + 1).date(), last.date())));
        }
        assert!(parts.iter().all(|part| part[2] == whole[2]));
        for place in 3..whole.len() {
            assert_eq!(whole[place], parts.iter().map(|part| part[place]).sum::<i64>());
        }
    }
}

#[test]
fn joining_refuses_bad_windows_then_unequal_ones_then_sums() {
    let study = Study::open(STUDY_WINDOW.0, STUDY_WINDOW.1).unwrap();
    let window = study.window;
    let full = Study { claims_taken: 500_001, ..study };
    let with = |study: Study, first: i32, last: i32| Study { window: Window { first: Day(first), last: Day(last) }, ..study };
    let (first, last) = (window.first.0, window.last.0);
    assert_eq!(joined(&study, &study), Ok(study));
    for (bad_first, bad_last) in [(last, first), (first, 54_787), (i32::MAX, i32::MAX)] {
        let bad = with(full, bad_first, bad_last);
        // Two equal bad windows, a bad one in either, and a fault of every kind.
        assert_eq!([joined(&bad, &bad), joined(&bad, &study), joined(&study, &bad), joined(&full, &bad)], [Err(1); 4]);
    }
    for other in [with(full, first + 1, last), with(full, first, last - 1), with(study, 0, 0)] {
        assert_eq!([joined(&study, &other), joined(&other, &study)], [Err(15); 2]);
    }
    assert_eq!([joined(&study, &full), joined(&full, &study), joined(&full, &full)], [Err(9); 3]);
}

#[test]
fn joined_studies_stay_within_the_bounds() {
    let study = Study::open(STUDY_WINDOW.0, STUDY_WINDOW.1).unwrap();
    let taken = |claims_taken: u32| Study { claims_taken, ..study };
    for (one, other, answer) in [
        (500_000, 0, Ok(500_000)),
        (0, 500_000, Ok(500_000)),
        (250_000, 250_000, Ok(500_000)),
        (250_000, 250_001, Err(9)),
        (1, 500_000, Err(9)),
        (500_001, 0, Err(9)),
        (u32::MAX, 1, Err(9)),
    ] {
        assert_eq!(joined(&taken(one), &taken(other)).map(|joined| joined.claims_taken), answer);
    }
    // Every other place of the list, with the bound that it has.
    let numbers = study.numbers();
    for place in 3..numbers.len() {
        let times = if place < 43 { 1 } else { 200 };
        let (most, signed) = match (place - 3) % 8 {
            0 => (times * 27_000_000_000, true),
            1..=5 => (times * 500_000, false),
            _ => (times * 27_000_000_000_000_000, true),
        };
        let at = |number: i64| {
            let mut numbers = numbers;
            numbers[place] = number;
            Study::of_numbers(&numbers)
        };
        let answer = |one: i64, other: i64| joined(&at(one), &at(other)).map(|joined| joined.numbers()[place]);
        for side in if signed { &[1, -1][..] } else { &[1] } {
            assert_eq!(answer(side * most, 0), Ok(side * most));
            assert_eq!(answer(side * (most - 1), *side), Ok(side * most));
            assert_eq!([answer(side * most, *side), answer(*side, side * most), answer(side * most, side * most)], [Err(9); 3]);
            assert_eq!([answer(side * (most + 1), 0), answer(0, side * (most + 1))], [Err(9); 2]);
        }
        if signed {
            assert_eq!(answer(most, -most), Ok(0));
            // Beyond in one, though not together.
            assert_eq!([answer(most + 1, -1), answer(-1, most + 1), answer(i64::MAX, i64::MIN)], [Err(9); 3]);
            // In 64 bits these would be small.
            assert_eq!([answer(i64::MIN, i64::MIN), answer(i64::MAX, i64::MAX)], [Err(9); 2]);
        } else {
            assert_eq!(answer(u32::MAX as i64, 1), Err(9));
        }
    }
}

// No. 8: pools in any grouping.

/// Joins any two neighbours until one study is left.
fn pooled(rng: &mut Rng, mut studies: Vec<Study>) -> Study {
    while studies.len() > 1 {
        let at = rng.below(studies.len() as u64 - 1) as usize;
        let other = studies.remove(at + 1);
        studies[at].join(&other).unwrap();
    }
    studies[0]
}

/// So many copies of a study, by doubling.
fn copies(study: &Study, count: u32) -> Study {
    let mut pool = Study::open(study.window.first.date(), study.window.last.date()).unwrap();
    for bit in (0..u32::BITS - count.leading_zeros()).rev() {
        let half = pool;
        pool.join(&half).unwrap();
        if count >> bit & 1 == 1 {
            pool.join(study).unwrap();
        }
    }
    pool
}

#[test]
fn order_and_grouping_of_pools_do_not_matter() {
    let mut rng = Rng::new(108);
    for _ in 0..150 {
        let rates = sound_rates(&mut rng, 4);
        let offices: Vec<Vec<Claim>> = (0..rng.range(1, 6)).map(|_| (0..rng.below(8)).map(|_| sound_claim(&mut rng)).collect()).collect();
        let window = sound_window(&mut rng, &offices[0].first().copied().unwrap_or_default());
        let whole = study_of(window, &offices.concat(), &rates);
        for _ in 0..4 {
            let mut studies: Vec<Study> = offices.iter().map(|claims| study_of(window, claims, &rates)).collect();
            // Fresh studies are neutral.
            studies.extend((0..rng.below(3)).map(|_| study_of(window, &[], &rates)));
            rng.shuffle(&mut studies);
            assert_eq!(pooled(&mut rng, studies), whole);
        }
    }
}

#[test]
fn pools_of_500_000_claims_in_any_grouping() {
    let mut rng = Rng::new(109);
    for _ in 0..30 {
        let rates = sound_rates(&mut rng, 4);
        let claims: Vec<Claim> = (0..4).map(|_| sound_claim(&mut rng)).collect();
        let window = sound_window(&mut rng, &claims[0]);
        // 125,000 copies of each of four claims, as studies of any size.
        let whole = copies(&study_of(window, &claims, &rates), 125_000);
        assert_eq!(whole.claims_taken, 500_000);
        let mut studies = Vec::new();
        for claim in &claims {
            let one = study_of(window, &[*claim], &rates);
            let mut left = 125_000;
            while left > 0 {
                let some = rng.range(1, left as i64) as u32;
                studies.push(copies(&one, some));
                left -= some;
            }
        }
        rng.shuffle(&mut studies);
        let pool = pooled(&mut rng, studies);
        assert_eq!(pool, whole);
        assert_eq!(joined(&pool, &study_of(window, &[], &rates)), Ok(pool));
        assert_eq!(joined(&pool, &study_of(window, &claims[..1], &rates)), Err(9));
    }
}

// No. 14: the small company rule.

/// T that don't move.
const SAME_T: [u64; 5] = [1_000_000, 900_000, 1_100_000, 1_200_000, 800_000];

/// Open claims disabled on some days, EP 15.
fn disabled_on(days: &[(&str, usize)]) -> Vec<u8> {
    let claims = days.iter().flat_map(|&(disability, count)| {
        let bcd = (day(disability) + 15).date();
        vec![Claim { disability: date(disability), bcd, ..Claim::default() }; count]
    });
    claims.flat_map(|claim| claim_record(&claim)).collect()
}

/// Whether the carrier is exempt, and both counts.
fn counted(valuation: &str, records: &[u8]) -> (bool, u64, u64) {
    let found = small_company(date(valuation), records, &SAME_T, &SAME_T).unwrap();
    assert_eq!((found.group, found.t), (0, if found.exempt { [1_000_000; 5] } else { SAME_T }));
    (found.exempt, found.recent, found.earlier)
}

#[test]
fn a_carrier_is_exempt_below_both_limits() {
    for (recent, earlier, exempt) in [(0, 0, true), (49, 199, true), (50, 0, false), (49, 200, false), (0, 200, false), (50, 200, false)] {
        let records = disabled_on(&[("2015-06-30", recent), ("2010-01-01", earlier), ("2017-01-01", 300)]);
        assert_eq!(counted("2016-12-31", &records), (exempt, recent as u64, earlier as u64));
    }
}

#[test]
fn the_same_day_two_years_before_counts_as_within() {
    for (valuation, disability, recent, earlier) in [
        ("2016-07-15", "2014-07-15", 1, 0),
        ("2016-07-15", "2014-07-14", 0, 1),
        ("2016-07-15", "2016-07-15", 1, 0),
        ("2016-07-15", "2016-07-16", 0, 0),
        ("2016-02-29", "2014-02-28", 1, 0),
        ("2016-02-29", "2014-02-27", 0, 1),
        ("2016-03-01", "2014-02-28", 0, 1),
        ("2018-02-28", "2016-02-28", 1, 0),
        ("2018-02-28", "2016-02-27", 0, 1),
        ("2018-03-01", "2016-02-29", 0, 1),
        // Two years before lies in 1949, and then on the first day of the calendar.
        ("1951-12-31", "1950-01-01", 1, 0),
        ("1950-06-30", "1950-01-01", 1, 0),
        ("1950-06-30", "1950-07-01", 0, 0),
        ("1952-01-01", "1950-01-01", 1, 0),
        ("1952-01-02", "1950-01-01", 0, 1),
        ("2099-12-31", "2097-12-31", 1, 0),
    ] {
        assert_eq!(counted(valuation, &disabled_on(&[(disability, 1)])), (true, recent, earlier), "{valuation} {disability}");
    }
    // Closed claims count in neither.
    let closed = claim_record(&closed_claim("2015-06-30", "2016-06-30", RECOVERY)).repeat(60);
    assert_eq!(counted("2016-12-31", &closed), (true, 0, 0));
}

#[test]
fn the_first_group_that_moves_by_more_than_a_tenth() {
    let records = disabled_on(&[("2015-06-30", 50)]);
    let found = |new: [u64; 5], old: [u64; 5]| {
        let found = small_company(date("2016-12-31"), &records, &new, &old).unwrap();
        assert_eq!((found.exempt, found.recent, found.earlier, found.t), (false, 50, 0, new));
        found.group
    };
    assert_eq!(found([1_000_000; 5], [1_000_000; 5]), 0);
    // Up and down by a tenth, and by one more.
    assert_eq!(found([1_100_000, 900_000, 1_100_000, 900_000, 1_100_000], [1_000_000; 5]), 0);
    assert_eq!(found([1_100_000, 900_000, 1_100_001, 900_000, 0], [1_000_000; 5]), 3);
    assert_eq!(found([1_100_000, 899_999, 1_100_000, 900_000, 0], [1_000_000; 5]), 2);
    assert_eq!(found([1_000_000, 1_000_000, 1_000_000, 1_000_000, 1_100_001], [1_000_000; 5]), 5);
    assert_eq!(found([0; 5], [0; 5]), 0);
    assert_eq!(found([0, 0, 0, 1, 0], [0; 5]), 4);
    // Ten times the difference past 64 bits.
    let (high, tenth) = (u64::MAX, u64::MAX / 10);
    assert_eq!(found([high, high - tenth, high - tenth - 1, 0, 0], [high; 5]), 3);
    assert_eq!(found([high; 5], [high, high, high - tenth, 0, 0]), 3);
    assert_eq!(found([high, 0, 0, 0, 0], [high, 0, 1 << 63, 1 << 60, 9]), 3);
}

#[test]
fn the_valuation_date_the_records_and_then_each_claim_are_checked() {
    let sound = disabled_on(&[("2015-06-30", 3)]);
    let refused = |valuation: Date, records: &[u8]| small_company(valuation, records, &SAME_T, &SAME_T).err().map(Refusal::number);
    let (bad, valuation) = (Date::new(2015, 2, 29), date("2016-12-31"));
    assert_eq!(refused(valuation, &sound), None);
    let nobody = SmallCompany { exempt: true, recent: 0, earlier: 0, group: 0, t: [1_000_000; 5] };
    assert_eq!(small_company(valuation, &[], &SAME_T, &[0; 5]), Ok(nobody));
    assert_eq!([bad, Date::MISSING].map(|date| refused(date, &sound[1..])), [Some(2); 2]);
    assert_eq!([1, 31, 33, 95].map(|length| refused(valuation, &sound[..length])), [Some(11); 4]);
    let claim = closed_claim("2011-02-10", "2012-05-20", RECOVERY);
    let faults = [
        (2, Claim { maximum: bad, ..claim }),
        (3, Claim { code: 7, ..claim }),
        (4, Claim { termination: date("2011-02-09"), benefit: 201, ..claim }),
        (16, Claim { benefit: 201, disability: claim.bcd, ..claim }),
        (5, Claim { disability: claim.bcd, ..claim }),
    ];
    for (number, fault) in faults {
        // A wrong zero byte, or a part of a record, anywhere after it comes first; then the first claim that fails.
        let records = [&sound[..], &claim_record(&fault)].concat();
        assert_eq!(refused(valuation, &records), Some(number));
        for at in 25..32 {
            let mut wrong = [&records[..], &sound].concat();
            wrong[records.len() + 32 + at] = 1;
            assert_eq!(refused(valuation, &wrong), Some(11));
        }
        assert_eq!(refused(valuation, &[&records[..], &[0]].concat()), Some(11));
        for (_, other) in faults {
            assert_eq!(refused(valuation, &[&records[..], &sound, &claim_record(&other)].concat()), Some(number));
        }
    }
}

// No. 13: a load that anyone can rebuild.

/// Draws by hand: 48,271, 182,605,794, 1,291,394,886, 1,914,720,637 and 2,078,669,041 are the first five from 1.
#[test]
fn the_first_claims_of_some_loads() {
    let claim =
        |number: u32, disability: &str, bcd: &str| Claim { number, disability: date(disability), bcd: date(bcd), ..Claim::default() };
    let closed = |claim: Claim, termination: &str, code: u8| Claim { status: CLOSED, termination: date(termination), code, ..claim };
    let claims = [
        claim(1, "1972-08-24", "1973-02-05"),
        closed(claim(2, "1992-12-09", "1993-05-16"), "2000-09-27", DEATH),
        closed(claim(3, "1956-06-29", "1956-11-28"), "1965-07-13", MAX_OUT),
    ];
    assert_eq!(load(1, 3).unwrap(), claims);
    assert_eq!(load_claim(1, 500_000, 7), Ok((Claim { number: 7, ..claims[0] }, 2_078_669_041)));
    assert_eq!(load_claim(2_078_669_041, 2, 2), Ok((claims[1], 1_596_680_831)));
    let highest = closed(claim(1, "1992-02-06", "1992-09-19"), "2000-12-16", DEATH);
    assert_eq!(load_claim(2_147_483_646, 1, 1), Ok((highest, 68_814_606)));
}

/// The generator's published figure: from 1 the 10,000th draw is 399,268,537.
#[test]
fn five_draws_a_claim_whatever_its_status() {
    let mut x = 1;
    for number in 1..=2_000 {
        x = load_claim(x, 2_000, number).unwrap().1;
    }
    assert_eq!(x, 399_268_537);
}

#[test]
fn drawn_claims_pass_their_checks_and_blocks_read_back_to_them() {
    let mut rng = Rng::new(110);
    for _ in 0..40 {
        let (seed, size) = (rng.range(1, 2_147_483_646) as u32, rng.range(0, 400) as u32);
        let claims = load(seed, size).unwrap();
        for (number, claim) in (1..).zip(&claims) {
            assert_eq!((claim.number, claim.cell, claim.benefit, claim.maximum), (number, 0, 0, Date::MISSING));
            assert!(claim.check().is_ok(), "{claim}");
        }
        // More of them begin with fewer.
        assert_eq!(load(seed, size + 5).unwrap()[..size as usize], claims);
        let file = claim_file(STUDY_WINDOW, &claims, None);
        let mut read = Vec::new();
        for (number, block) in (1..).zip(file.chunks(512).skip(1)) {
            let Ok(Block::Claims(block)) = read_block(block, number) else { panic!() };
            read.extend_from_slice(&block.claims[..block.count]);
        }
        assert_eq!(read, claims);
        assert_eq!(run_file(&file, &flat_rates(1, 1)).study.claims_taken, size);
    }
}

#[test]
fn another_seed_size_or_number_is_refused() {
    let refused = |x: u32, size: u32, number: u32| load_claim(x, size, number).err().map(Refusal::number);
    for (x, size, number) in [(1, 1, 1), (2_147_483_646, 500_000, 500_000), (7, 500_000, 1), (7, 2, 2)] {
        assert_eq!(refused(x, size, number), None);
    }
    for x in [0, 2_147_483_647, 2_147_483_648, u32::MAX] {
        assert_eq!(refused(x, 1, 1), Some(20));
    }
    for (size, number) in [(500_001, 1), (u32::MAX, 1), (0, 0), (0, 1), (1, 0), (1, 2), (500_000, 500_001), (500_000, u32::MAX)] {
        assert_eq!(refused(1, size, number), Some(20));
    }
    assert_eq!(load(1, 0), Ok(vec![]));
}

// No. 1: corrected claims in the same file.

/// Number, block, place and claims taken.
fn outcome(run: &FileRun) -> (u8, u32, u32, u32) {
    (run.refused, run.block, run.place, run.study.claims_taken)
}

/// The claims that no later one with their number corrects, with their places in the list.
fn kept(claims: &[Claim]) -> Vec<(usize, Claim)> {
    let corrected = |i: usize| claims[i + 1..].iter().any(|later| later.number == claims[i].number);
    claims.iter().copied().enumerate().filter(|&(i, _)| !corrected(i)).collect()
}

#[test]
fn only_the_last_record_of_a_claim_number_is_studied() {
    let rates = flat_rates(10_000, 5_000);
    let claim = |number: u32| Claim { number, ..closed_claim("2009-06-11", "2012-04-29", RECOVERY) };
    let settled = |number: u32| Claim { code: SETTLEMENT, ..claim(number) };
    // Once in its block and once in a later one; the number of a block's claim corrected in the block after.
    let mut claims: Vec<Claim> = (1..=20).map(claim).collect();
    claims.extend([settled(20), settled(3)]);
    let run = run_corrected_file(&claim_file(STUDY_WINDOW, &claims, None), &rates);
    assert_eq!((outcome(&run), run.study.groups[2].closings), ((0, 0, 0, 20), [18, 0, 2, 0, 0]));
    // A run without corrections takes them all.
    assert_eq!(outcome(&run_file(&claim_file(STUDY_WINDOW, &claims, None), &rates)), (0, 0, 0, 22));
    // An earlier record is not checked beyond its block; a later one is, and its own place is named.
    claims[2] = Claim { status: 9, bcd: Date::MISSING, ..claim(3) };
    assert_eq!(run_corrected_file(&claim_file(STUDY_WINDOW, &claims, None), &rates).study, run.study);
    claims[21] = Claim { code: 7, ..claim(3) };
    assert_eq!(outcome(&run_corrected_file(&claim_file(STUDY_WINDOW, &claims, None), &rates)), (3, 2, 7, 19));
}

#[test]
fn blocks_are_checked_before_the_window_and_the_window_before_the_number_of_records() {
    let rates = flat_rates(10_000, 5_000);
    let (first, last) = STUDY_WINDOW;
    let bad_claims: Vec<Claim> = (1..=16).map(|number| Claim { number, status: 9, ..open_claim("2011-02-10") }).collect();
    for (window, refused) in [(STUDY_WINDOW, (3, 1, 1, 0)), ((last, first), (1, 0, 0, 0))] {
        let mut file = claim_file(window, &bad_claims, None);
        assert_eq!(outcome(&run_corrected_file(&file, &rates)), refused);
        // The study of 1950-01-01 alone with every fault of a block, wherever it is.
        for (length, due) in [(0, 0), (511, 0), (513, 1), (1_535, 2)] {
            let run = run_corrected_file(&file[..length], &rates);
            assert_eq!((outcome(&run), run.study), ((11, due, 0, 0), Study::unopened()));
        }
        file[1_024 + 40] ^= 1;
        let run = run_corrected_file(&file, &rates);
        assert_eq!((outcome(&run), run.study), ((11, 2, 0, 0), Study::unopened()));
    }
    assert_eq!(run_corrected_file(&claim_file((last, first), &[], None), &rates).study, Study::unopened());
}

#[test]
fn a_file_with_corrections_has_at_most_60_000_records() {
    let (rates, claim) = (flat_rates(0, 0), closed_claim("2001-02-10", "2001-02-10", RECOVERY));
    let opened = Study::open(STUDY_WINDOW.0, STUDY_WINDOW.1).unwrap();
    for numbers in [1, 7, 60_001] {
        let claims: Vec<Claim> = (0..60_001).map(|i| Claim { number: i % numbers, ..claim }).collect();
        let run = |count: usize| run_corrected_file(&claim_file(STUDY_WINDOW, &claims[..count], None), &rates);
        assert_eq!(outcome(&run(60_000)), (0, 0, 0, numbers.min(60_000)));
        assert_eq!((outcome(&run(60_001)), run(60_001).study), ((14, 0, 0, 0), opened));
        // After the window, and before any claim and the table.
        let bad: Vec<Claim> = claims.iter().map(|claim| Claim { status: 9, ..*claim }).collect();
        assert_eq!(outcome(&run_corrected_file(&claim_file(STUDY_WINDOW, &bad, None), &[])), (14, 0, 0, 0));
        assert_eq!(outcome(&run_corrected_file(&claim_file((STUDY_WINDOW.1, STUDY_WINDOW.0), &bad, None), &[])), (1, 0, 0, 0));
        let mut damaged = claim_file((STUDY_WINDOW.1, STUDY_WINDOW.0), &bad, None);
        damaged.push(0);
        assert_eq!(outcome(&run_corrected_file(&damaged, &[])), (11, 4_002, 0, 0));
        assert_eq!(run_file(&claim_file(STUDY_WINDOW, &claims, None), &rates).study.claims_taken, 60_001);
    }
}

/// The result is that of a file from which the earlier records were struck, save a refusal's place; and the parts total the whole.
#[test]
fn a_corrected_run_is_the_run_over_the_struck_file() {
    let mut rng = Rng::new(111);
    let mut refused = 0;
    for _ in 0..400 {
        let rates = sound_rates(&mut rng, 4);
        let numbers = rng.pick(&[1, 5, 30, 1_000]);
        let mut claims: Vec<Claim> =
            (0..rng.range(1, 60)).map(|_| Claim { number: rng.below(numbers) as u32, ..sound_claim(&mut rng) }).collect();
        let window = sound_window(&mut rng, &claims[0]);
        for claim in &mut claims {
            if rng.one_in(20) {
                let number = claim.number;
                damage_claim(&mut rng, claim);
                claim.number = number;
            }
        }
        let kept = kept(&claims);
        let struck: Vec<Claim> = kept.iter().map(|(_, claim)| *claim).collect();
        let wanted = run_file(&claim_file(window, &struck, None), &rates);
        let run = run_corrected_file(&claim_file(window, &claims, None), &rates);
        assert_eq!((run.refused, run.study), (wanted.refused, wanted.study));
        if run.refused != 0 {
            let (original, _) = kept[(wanted.block as usize - 1) * 15 + wanted.place as usize - 1];
            assert_eq!((run.block as usize, run.place as usize), (original / 15 + 1, original % 15 + 1));
            refused += 1;
            continue;
        }
        let [first, last] = [window.0, window.1].map(|date| date.day_number().unwrap());
        let cut = Day(rng.range(first.0 as i64, last.0 as i64) as i32);
        let part =
            |first: Day, last: Day| run_corrected_file(&claim_file((first.date(), last.date()), &claims, None), &rates).study.numbers();
        let (whole, mut parts) = (run.study.numbers(), vec![part(first, cut)]);
        if cut < last {
            parts.push(part(cut + 1, last));
        }
        for place in 3..whole.len() {
            assert_eq!(whole[place], parts.iter().map(|part| part[place]).sum::<i64>());
        }
    }
    assert!((40..360).contains(&refused), "{refused}");
}

// No. 9: the 1.30 limit judged on reserves.

#[test]
fn t_has_no_ceiling() {
    // Twice as many terminations as expected, full credibility.
    for (group, c) in [(2, 8_000), (3, 4_999), (3, 5_000), (4, 8_000), (5, 8_000)] {
        let Factor { z, m, t } = factor(group, c, 30 * 1_000_000 * c as i64 / 2).unwrap();
        assert!(t > 1_300_000);
        assert_eq!(t, 1_000_000 - z + z * (1_000_000 - m) * 2 / 1_000_000, "{group} {c}");
    }
}

#[test]
fn the_limit_is_judged_on_both_totals() {
    let rates = flat_rates(300_000, 200_000);
    let table = RateTable::new(&rates);
    // g 500,000 gives 0.3125, and 650,000 0.35 / 2 + 0.1225 / 4; two claims, one rounding each.
    let claims = [0, 25, 2, 0, 480, 2];
    let limited = |t: [u64; 5], count: u64| reserve_limit(&table, &claims, &t, count, 0.5).unwrap();
    let one = 0.35 * 0.5 + 0.35 * 0.35 * 0.25;
    let given = limited([7, 8, 1_000_000, 1_000_000, 1_000_000], 0);
    assert_eq!(given, Limited { t: [7, 8, 1_000_000, 1_000_000, 1_000_000], given: 0.625, replaced: one + one });
    // The reserves with the given T are less.
    let high = [7, 8, 2_000_000, 2_000_000, 2_000_000];
    assert_eq!(limited(high, 4_999), Limited { t: [7, 8, 1_300_000, 1_300_000, 1_300_000], given: 0.0, replaced: one + one });
    assert_eq!(limited(high, 5_000), Limited { t: [7, 8, 2_000_000, 1_300_000, 1_300_000], given: 0.0, replaced: one });
    // Equal totals keep the given T; no claims, no totals.
    let equal = [7, 8, 1_300_000, 9, 1_300_000];
    assert_eq!(limited(equal, u64::MAX).t, equal);
    assert_eq!(reserve_limit(&RateTable::new(&[]), &[], &high, 0, f64::NAN), Ok(Limited { t: high, given: 0.0, replaced: 0.0 }));
}

#[test]
fn open_claims_are_refused_in_list_order() {
    let rates = flat_rates(300_000, 200_000);
    let refused = |rates: &[u32], claims: &[u32], v: f64| {
        reserve_limit(&RateTable::new(rates), claims, &[1_000_000; 5], 0, v).err().map(Refusal::number)
    };
    let sound = [0, 25, 480];
    assert_eq!(refused(&rates, &sound.repeat(2_000), 0.5), None);
    assert_eq!(refused(&[], &sound.repeat(2_001), 0.0), Some(17));
    assert_eq!([1, 2, 4, 5_999].map(|length| refused(&[], &vec![9; length], 0.0)), [Some(17); 4]);
    assert_eq!(refused(&[], &sound, 0.0), Some(6));
    assert_eq!(refused(&rates, &[0, 24, 480, 1, 25, 480], 0.5), Some(17));
    assert_eq!(refused(&rates, &[1, 25, 480, 0, 24, 480], 0.5), Some(7));
    assert_eq!(refused(&rates, &[0, 24, 481], 0.5), Some(12));
    assert_eq!(refused(&rates, &[0, 24, 480], 0.0), Some(13));
    assert_eq!(
        [0, 1, 2, 24, 480, 481].map(|first| refused(&rates, &[0, first, 0], 0.5)),
        [Some(12), Some(12), Some(17), Some(17), None, Some(12)]
    );
}

// No. 11: how many closings reach a wanted factor.

#[test]
fn the_count_reaches_the_wanted_factor_and_every_smaller_one_falls_short() {
    let t = |group: u8, c: u32, e: i64| factor(group, c, e).unwrap().t;
    for (group, e) in [(2, 24_750_000_000), (3, 99_000_000_000), (4, 1), (5, 7_000_000)] {
        for wanted in [0, 1, 500_000, 1_000_000, 1_000_001, 1_300_001, 5_000_000] {
            let count = (0..=500_000).find(|&c| t(group, c, e) >= wanted);
            assert_eq!(wanted_count(group, e, wanted).ok(), count, "{group} {e} {wanted}");
        }
        let highest = t(group, 500_000, e);
        assert!(wanted_count(group, e, highest).is_ok());
        assert_eq!([highest + 1, u64::MAX].map(|wanted| wanted_count(group, e, wanted)), [Err(Refusal::NoSuchCount); 2]);
    }
    // T is one whatever the count in group 1, and where nothing is expected.
    for (group, e) in [(1, 24_750_000_000), (2, 0), (5, i64::MIN)] {
        assert_eq!([0, 1_000_000].map(|wanted| wanted_count(group, e, wanted)), [Ok(0); 2]);
        assert_eq!(wanted_count(group, e, 1_000_001), Err(Refusal::NoSuchCount));
    }
    assert_eq!([0, 6, 255].map(|group| wanted_count(group, 1, u64::MAX)), [Err(Refusal::Valuation); 3]);
}

/// T never falls with the count.
#[test]
fn t_rises_with_the_count() {
    for group in 1..=5 {
        for e in [1, 1_000, 30_000_000, 24_750_000_000, i64::MAX] {
            let all: Vec<u64> = (0..=500_000).step_by(13).chain(0..2_000).map(|c| factor(group, c, e).unwrap().t).collect();
            let (coarse, fine) = all.split_at(all.len() - 2_000);
            assert!(coarse.is_sorted() && fine.is_sorted());
        }
    }
}
