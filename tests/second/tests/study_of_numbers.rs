//! A study handed in as a list of numbers, which may hold anything: each number is refused under the paper's number, at its place in the
//! order of the checks.

use second::claim::{Claim, RECOVERY};
use second::examples::{closed_claim, date, flat_rates, STUDY_WINDOW};
use second::rates::RateTable;
use second::study::{Study, STUDY_LENGTH};
use second::Refusal;

type Numbers = [i64; STUDY_LENGTH];

/// What 32 bits take for 0.
const PAST: i64 = 1 << 32;
const LAST_DAY: i64 = 54_786;

/// The example's study as if many claims had been added.
fn numbers() -> Numbers {
    let mut study = Study::open(STUDY_WINDOW.0, STUDY_WINDOW.1).unwrap().numbers();
    study[2..].fill(1_000);
    study
}

fn with(study: &Numbers, place: usize, number: i64) -> Numbers {
    let mut changed = *study;
    changed[place] = number;
    changed
}

fn number(result: Result<(), Refusal>) -> u8 {
    result.err().map_or(0, Refusal::number)
}

fn add(study: &Numbers, claim: &Claim, rates: &[u32]) -> u8 {
    number(Study::of_numbers(study).add(claim, &RateTable::new(rates)))
}

fn withdraw(study: &Numbers, claim: &Claim, rates: &[u32]) -> u8 {
    number(Study::of_numbers(study).withdraw(claim, &RateTable::new(rates)))
}

fn join(study: &Numbers, other: &Numbers) -> u8 {
    number(Study::of_numbers(study).join(&Study::of_numbers(other)))
}

/// The answers of adding, withdrawing, joining another study and being joined to one, for a number at a place.
fn answers(place: usize, number: i64) -> [u8; 4] {
    let study = with(&numbers(), place, number);
    let (claim, rates) = (closed_claim("2009-06-11", "2012-04-29", RECOVERY), flat_rates(10_000, 5_000));
    let fresh = Study::open(STUDY_WINDOW.0, STUDY_WINDOW.1).unwrap().numbers();
    [add(&study, &claim, &rates), withdraw(&study, &claim, &rates), join(&study, &fresh), join(&fresh, &study)]
}

/// The least and the most that the paper lets stand at a place of the sums.
fn bounds(place: usize) -> (i64, i64) {
    let times = if place < 43 { 1 } else { 200 };
    match (place - 3) % 8 {
        0 => (-times * 27_000_000_000, times * 27_000_000_000),
        1..=5 => (0, times * 500_000),
        _ => (-times * 27_000_000_000_000_000, times * 27_000_000_000_000_000),
    }
}

#[test]
fn numbers_within_their_fields_are_kept() {
    let mut study = numbers();
    (3..STUDY_LENGTH).for_each(|place| study[place] = bounds(place).1 - place as i64);
    assert_eq!(Study::of_numbers(&study).numbers(), study);
}

#[test]
fn a_day_outside_the_calendar_is_refused_1() {
    for place in 0..2 {
        for day in [-1, LAST_DAY + 1, i64::MIN, i64::MAX, -PAST, PAST, PAST + numbers()[place], (1 << 31) + 5] {
            assert_eq!(answers(place, day), [1; 4], "{day} at place {place}");
        }
    }
    // The ends of the calendar are days of it; another window is then another one.
    assert_eq!([answers(0, 0), answers(1, LAST_DAY)], [[0, 0, 15, 15]; 2]);
    assert_eq!([answers(0, LAST_DAY), answers(1, 0)], [[1; 4]; 2]);
}

#[test]
fn claims_taken_outside_their_limits_are_refused_9() {
    for (taken, wanted) in [
        (1, [0; 4]),
        (499_999, [0; 4]),
        (500_000, [9, 0, 0, 0]),
        (0, [0, 18, 0, 0]),
        (500_001, [9; 4]),
        (-1, [9; 4]),
        (PAST - 1, [9; 4]),
        (PAST, [9; 4]),
        (PAST + 5, [9; 4]),
        (-PAST, [9; 4]),
        (i64::MIN, [9; 4]),
        (i64::MAX, [9; 4]),
    ] {
        assert_eq!(answers(2, taken), wanted, "{taken} claims taken");
    }
}

#[test]
fn sums_and_counts_past_their_bounds_are_refused_9() {
    for place in 3..STUDY_LENGTH {
        let (least, most) = bounds(place);
        for within in [least + 200, most] {
            assert_eq!(answers(place, within), [0; 4], "{within} at place {place}");
        }
        for past in [least - 1, most + 1, i64::MIN, i64::MAX] {
            assert_eq!(answers(place, past), [9; 4], "{past} at place {place}");
        }
        if least == 0 {
            // Taken by 32 bits these would be within.
            for past in [-PAST, PAST, PAST + 5, PAST + most] {
                assert_eq!(answers(place, past), [9; 4], "{past} at place {place}");
            }
        } else {
            assert_eq!(answers(place, least), [0; 4]);
        }
    }
}

/// Two numbers outside their fields never make one within.
#[test]
fn joined_studies_are_within_their_bounds_each() {
    let fresh = Study::open(STUDY_WINDOW.0, STUDY_WINDOW.1).unwrap().numbers();
    for place in 2..STUDY_LENGTH {
        let (least, most) = if place == 2 { (0, 500_000) } else { bounds(place) };
        for (one, other) in [(PAST, -PAST), (-1, 1), (i64::MAX, i64::MIN), (i64::MAX, i64::MAX), (PAST - 1, 1)] {
            let wanted = if [one, other].iter().all(|number| (least..=most).contains(number)) { 0 } else { 9 };
            let studies = [with(&fresh, place, one), with(&fresh, place, other)];
            assert_eq!([join(&studies[0], &studies[1]), join(&studies[1], &studies[0])], [wanted; 2], "{one} and {other} at place {place}");
        }
    }
}

#[test]
fn each_number_is_refused_at_its_place_in_the_order() {
    let claim = closed_claim("2009-06-11", "2012-04-29", RECOVERY);
    let rates = flat_rates(10_000, 5_000);
    let full = with(&with(&with(&numbers(), 2, PAST), 4, -1), 50, i64::MIN);
    let no_day = with(&full, 0, -1);
    let short = Claim { disability: date("2009-06-11"), ..claim };
    for (claim, rates, number) in [
        (Claim { maximum: date("2001-02-29"), code: 9, ..claim }, &rates[1..], 2),
        (Claim { code: 9, termination: date("2009-06-10"), ..claim }, &rates[1..], 3),
        (Claim { termination: date("2009-06-10"), benefit: 201, ..claim }, &rates[1..], 4),
        (Claim { benefit: 201, ..short }, &rates[1..], 16),
        (short, &rates[1..], 5),
        (Claim { cell: 1, ..claim }, &rates[1..], 6),
        (Claim { cell: 1, ..claim }, &rates[..], 7),
        (claim, &flat_rates(1_000_000, 1)[..], 8),
        (claim, &rates[..], 9),
    ] {
        assert_eq!([add(&full, &claim, rates), withdraw(&full, &claim, rates)], [number; 2]);
        assert_eq!([add(&no_day, &claim, rates), withdraw(&no_day, &claim, rates)], [1; 2]);
    }
    // 18 comes after 9.
    let none = with(&numbers(), 2, 0);
    assert_eq!([withdraw(&none, &claim, &rates), withdraw(&with(&none, 3, i64::MAX), &claim, &rates)], [18, 9]);
    // Of a join the window of either, then unequal windows, then 9.
    let (study, other) = (numbers(), with(&full, 1, LAST_DAY));
    assert_eq!([join(&no_day, &study), join(&study, &no_day), join(&no_day, &other), join(&other, &no_day)], [1; 4]);
    assert_eq!([join(&study, &other), join(&other, &study), join(&full, &other)], [15; 3]);
    assert_eq!([join(&study, &full), join(&full, &study), join(&full, &full)], [9; 3]);
}
