//! Dates, claims and rates as the papers' examples name them: window 2009-01-01 to 2017-12-31, EP 90, cell 0, maximum date missing.

use crate::calendar::{Date, Day};
use crate::claim::{Claim, CLOSED, OPEN};
use crate::months::listing;
use crate::rates::DURATIONS;
use crate::Refusal;

pub const STUDY_WINDOW: (Date, Date) = (Date::new(2009, 1, 1), Date::new(2017, 12, 31));

pub fn date(text: &str) -> Date {
    let mut parts = text.split('-').map(|part| part.parse().unwrap());
    let [year, month, day]: [u16; 3] = std::array::from_fn(|_| parts.next().unwrap());
    Date::new(year, month as u8, day as u8)
}

pub fn day(text: &str) -> Day {
    date(text).day_number().unwrap()
}

pub fn open_claim(bcd: &str) -> Claim {
    with_elimination(bcd, 90)
}

pub fn with_elimination(bcd: &str, days: i32) -> Claim {
    Claim { number: 1, disability: (day(bcd) + -days).date(), bcd: date(bcd), status: OPEN, ..Claim::default() }
}

pub fn closed_claim(bcd: &str, termination: &str, code: u8) -> Claim {
    Claim { termination: date(termination), status: CLOSED, code, ..open_claim(bcd) }
}

/// A table of one cell with the same rates at all durations.
pub fn flat_rates(recovery: u32, death: u32) -> Vec<u32> {
    [[recovery; DURATIONS], [death; DURATIONS]].concat()
}

/// The listing over a window as rows.
pub fn rows_in(first: &str, last: &str, claim: &Claim) -> Result<Vec<[i32; 6]>, Refusal> {
    let mut list = vec![-7; 6 * 1_800];
    let count = listing(date(first), date(last), claim, &mut list)?;
    assert!(list[6 * count..].iter().all(|&number| number == -7), "the list past the records is unchanged");
    Ok(list[..6 * count].chunks_exact(6).map(|row| row.try_into().unwrap()).collect())
}
