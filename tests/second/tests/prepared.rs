//! The second implementation's prepared tables, as the C header describes them.

use second::calendar::Date;
use second::claim::Claim;
use second::examples::flat_rates;
use second::generate::{any_cell, claim_file, damage_claim, damage_rates, sound_claim, sound_rates, sound_window};
use second::rates::{prepare, PreparedTable, RateTable, CELL_LENGTH, DURATIONS};
use second::rng::Rng;
use second::run::{run_corrected_file, run_file, run_prepared_corrected_file, run_prepared_file, MOST_RECORDS};
use second::study::Study;
use second::Refusal;

/// Rates and a last number.
fn table_of(rates: &[u32], last: u32) -> Vec<u32> {
    [rates, &[last]].concat()
}

#[test]
fn rates_become_their_running_sums() {
    // Recovery rates 2, 3, .. and death rates 1,000; an unsound cell; all rates one.
    let rising: Vec<u32> = (2..=480).chain([1_000; DURATIONS]).collect();
    let mut unsound = flat_rates(400_000, 600_000);
    unsound[CELL_LENGTH - 1] += 1;
    let mut table = table_of(&[&rising[..], &unsound, &flat_rates(1_000_000, 0)].concat(), 0);
    assert_eq!(prepare(&mut table), Ok(()));
    for i in 0..DURATIONS {
        let n = i as u32 + 1;
        assert_eq!((table[i], table[DURATIONS + i]), (n * (n + 3) / 2, n * 1_000));
        assert_eq!((table[2 * CELL_LENGTH + i], table[2 * CELL_LENGTH + DURATIONS + i]), (n * 1_000_000, 0));
    }
    unsound[0] = u32::MAX;
    assert_eq!((&table[CELL_LENGTH..2 * CELL_LENGTH], table[3 * CELL_LENGTH]), (&unsound[..], 1));
}

#[test]
fn other_lengths_and_last_numbers_are_refused_without_a_trace() {
    let sound = |cells: usize| flat_rates(10_000, 5_000).repeat(cells);
    for length in [0, 1, 2, 958, 960, 958 + 480, 1_916, 1_024 * 958, 1_024 * 958 + 2, 1_025 * 958 + 1] {
        let mut table = vec![0; length];
        assert_eq!(prepare(&mut table), Err(Refusal::RateTable), "{length}");
        assert!(table.iter().all(|&number| number == 0));
    }
    for last in [1, 2, u32::MAX] {
        let mut table = table_of(&sound(1), last);
        assert_eq!(prepare(&mut table), Err(Refusal::RateTable));
        assert_eq!(table, table_of(&sound(1), last));
    }
    for cells in [1, 64, 65, 1_024] {
        let mut table = table_of(&sound(cells), 0);
        assert_eq!(prepare(&mut table), Ok(()));
        assert_eq!(prepare(&mut table), Err(Refusal::RateTable));
    }
}

/// A run with the prepared table of some rates is the run with these rates, refusals included.
#[test]
fn runs_with_a_prepared_table_are_runs_with_its_rates() {
    let mut rng = Rng::new(203);
    let mut met = [0; 17];
    for _ in 0..4_000 {
        let cells = rng.range(1, 3) as usize;
        let mut rates = sound_rates(&mut rng, cells);
        if rng.one_in(3) {
            damage_rates(&mut rng, &mut rates);
        }
        let mut claims: Vec<Claim> = (0..20).map(|_| Claim { cell: any_cell(&mut rng, cells), ..sound_claim(&mut rng) }).collect();
        let window = sound_window(&mut rng, &claims[0]);
        if rng.one_in(3) {
            damage_claim(&mut rng, &mut claims[10]);
        }
        let file = claim_file(window, &claims, None);
        let mut table = table_of(&rates, 0);
        let prepared = prepare(&mut table);
        let run = run_prepared_file(&file, &table);
        assert_eq!(run, run_file(&file, &rates));
        assert_eq!(run_prepared_corrected_file(&file, &table), run_corrected_file(&file, &rates));
        assert!(prepared.is_ok() || [2, 3, 4, 16, 5, 6].contains(&run.refused));
        met[run.refused as usize] += 1;
    }
    assert!([0, 6, 7, 8].iter().all(|&number| met[number] >= 50), "{met:?}");
}

#[test]
fn a_list_never_prepared_has_its_differences_for_rates() {
    // Both kinds fall from some number at duration 2: recovery by 3 a month, death by 2,000 and at 480 by 7.
    let recovery: Vec<u32> = (0..479).map(|i| 1_000_000 - 3 * i).collect();
    let mut death: Vec<u32> = (0..479).map(|i| u32::MAX - 2_000 * i).collect();
    death[478] = death[477] - 7;
    let table = table_of(&[recovery, death].concat(), 1);
    // Months 1950-02-01 to 03-31 at durations 2 and 3; and two at 481 and 482.
    let early = Claim { disability: Date::new(1950, 1, 1), bcd: Date::new(1950, 2, 1), ..Claim::default() };
    let late = Claim { bcd: Date::new(1989, 6, 15), ..early };
    let run = |claim: Claim, first: Date, last: Date| run_prepared_file(&claim_file((first, last), &[claim], None), &table).study;
    let sums = run(early, Date::new(1950, 2, 1), Date::new(1950, 3, 31)).groups[0];
    assert_eq!((sums.expected_recoveries, sums.expected_deaths), (30 * (1_000_000 - 3), 30 * (u32::MAX as i64 - 2_000)));
    let sums = run(late, Date::new(1989, 6, 15), Date::new(1989, 8, 14)).groups[4];
    assert_eq!((sums.thirtieths, sums.expected_recoveries, sums.expected_deaths), (60, 60 * -3, 60 * -7));

    let refused = |table: &[u32]| {
        let file = claim_file((Date::new(1950, 2, 1), Date::new(1950, 3, 31)), &[early], None);
        run_prepared_file(&file, table).refused
    };
    assert_eq!(refused(&table), 0);
    assert_eq!([&table[..958], &table[1..], &[1], &[]].map(refused), [6; 4]);
    assert_eq!([0, 2, u32::MAX].map(|last| refused(&table_of(&table[..958], last))), [6; 3]);
    assert_eq!(refused(&table_of(&[&[1_000_001], &table[1..958]].concat(), 1)), 8);
}

/// Each claim added and withdrawn with the prepared table of some rates, and with these rates: the same study and the same refusal.
#[test]
fn adding_and_withdrawing_with_a_prepared_table() {
    let mut rng = Rng::new(204);
    let mut met = [0; 19];
    for _ in 0..400 {
        let cells = rng.range(1, 3) as usize;
        let mut rates = sound_rates(&mut rng, cells);
        if rng.one_in(3) {
            damage_rates(&mut rng, &mut rates);
        }
        let mut table = table_of(&rates, 0);
        let _ = prepare(&mut table);
        let (plain_rates, prepared_rates) = (RateTable::new(&rates), PreparedTable(&table));
        let about = sound_claim(&mut rng);
        let (first, last) = sound_window(&mut rng, &about);
        let mut plain = Study::open(first, last).unwrap();
        let mut prepared = plain;
        for _ in 0..40 {
            let mut claim = Claim { cell: any_cell(&mut rng, cells), ..sound_claim(&mut rng) };
            if rng.one_in(4) {
                damage_claim(&mut rng, &mut claim);
            }
            let answers = if rng.one_in(3) {
                [plain.withdraw(&claim, &plain_rates), prepared.withdraw(&claim, &prepared_rates)]
            } else {
                [plain.add(&claim, &plain_rates), prepared.add(&claim, &prepared_rates)]
            };
            assert_eq!((answers[0], plain), (answers[1], prepared), "{claim}");
            met[answers[0].err().map_or(0, |refusal| refusal.number() as usize)] += 1;
        }
    }
    assert!([0, 2, 3, 4, 5, 6, 7, 8, 16, 18].iter().all(|&number| met[number] >= 50), "{met:?}");
}

#[test]
fn a_claim_added_and_withdrawn_with_a_list_never_prepared() {
    // Recovery rates from 2 on: 5, −3, 10 and then nothing; a last number that is not 1 is no prepared table.
    let mut table = vec![12; CELL_LENGTH + 1];
    (table[0], table[1], table[CELL_LENGTH]) = (5, 2, 1);
    table[DURATIONS..CELL_LENGTH].fill(0);
    let claim = Claim { disability: Date::new(1950, 1, 1), bcd: Date::new(1950, 2, 1), ..Claim::default() };
    let opened = Study::open(Date::new(1950, 2, 1), Date::new(1950, 4, 30)).unwrap();
    let mut study = opened;
    for (claims, expected) in [(1, 30 * 5), (2, 2 * 30 * 5)] {
        // Durations 2 and 3 are of group 1, duration 4 of group 2.
        study.add(&claim, &PreparedTable(&table)).unwrap();
        assert_eq!(study.groups[0].expected_recoveries, expected - claims * 30 * 3);
        assert_eq!((study.groups[1].expected_recoveries, study.groups[1].expected_deaths), (claims * 30 * 10, 0));
    }
    for last in [0, 2, u32::MAX] {
        let wrong = table_of(&table[..CELL_LENGTH], last);
        assert_eq!(study.add(&claim, &PreparedTable(&wrong)), Err(Refusal::RateTable));
        assert_eq!(study.withdraw(&claim, &PreparedTable(&wrong)), Err(Refusal::RateTable));
    }
    for _ in 0..2 {
        study.withdraw(&claim, &PreparedTable(&table)).unwrap();
    }
    assert_eq!((study, study.withdraw(&claim, &PreparedTable(&table))), (opened, Err(Refusal::NotTaken)));
}

/// Of each claim number the last record alone, and 11, 1 and 14 before any table is asked for.
#[test]
fn corrected_runs_with_a_prepared_table() {
    let mut table = table_of(&flat_rates(10_000, 5_000), 0);
    prepare(&mut table).unwrap();
    let window = (Date::new(2009, 1, 1), Date::new(2017, 12, 31));
    let wrong = Claim { number: 1, disability: Date::new(2009, 3, 13), bcd: Date::new(2009, 6, 11), status: 9, ..Claim::default() };
    let right = Claim { status: 0, ..wrong };
    let run = |window, claims: &[Claim], table: &[u32]| {
        let run = run_prepared_corrected_file(&claim_file(window, claims, None), table);
        (run.refused, run.block, run.place, run.study.claims_taken)
    };
    let corrected = [wrong, Claim { number: 2, ..right }, right];
    assert_eq!(run(window, &corrected, &table), (0, 0, 0, 2));
    assert_eq!(run(window, &[right, wrong], &table), (3, 1, 2, 0));
    // The first record is not asked for its rates.
    assert_eq!(run(window, &corrected, &table[1..]), (6, 1, 2, 0));
    assert_eq!(run(window, &corrected, &flat_rates(10_000, 5_000)), (6, 1, 2, 0));
    assert_eq!(run((window.1, window.0), &corrected, &[]), (1, 0, 0, 0));
    let many = vec![right; MOST_RECORDS + 1];
    assert_eq!([run(window, &many, &table), run(window, &many, &[])], [(14, 0, 0, 0); 2]);
    assert_eq!(run(window, &many[1..], &table), (0, 0, 0, 1));
}
