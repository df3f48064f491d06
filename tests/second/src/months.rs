//! Months of exposure: the month records of a claim in a window, and their listing.

use crate::calendar::{ClaimMonths, Date, Day};
use crate::claim::{CheckedClaim, Claim, Duration, Termination, DEATH, RECOVERY};
use crate::Refusal;

/// Thirtieths of a month.
#[derive(Clone, Copy, Debug, PartialEq, Eq, PartialOrd, Ord)]
pub struct Thirtieths(pub i32);

/// The window from b to e, both included.
#[derive(Clone, Copy, Debug, PartialEq, Eq)]
pub struct Window {
    pub first: Day,
    pub last: Day,
}

impl Window {
    /// Check 1 of a window given by dates.
    pub fn of_dates(first: Date, last: Date) -> Result<Window, Refusal> {
        match (first.day_number(), last.day_number()) {
            (Some(first), Some(last)) if first <= last => Ok(Window { first, last }),
            _ => Err(Refusal::Window),
        }
    }

    /// Check 1 of a window given by day numbers.
    pub fn check(&self) -> Result<(), Refusal> {
        if self.first.is_date() && self.last.is_date() && self.first <= self.last {
            Ok(())
        } else {
            Err(Refusal::Window)
        }
    }
}

#[derive(Clone, Copy, Debug, PartialEq, Eq)]
pub struct MonthRecord {
    pub duration: Duration,
    pub first: Day,
    pub last: Day,
    pub thirtieths: Thirtieths,
    /// The closing category, 0 except in the closing month.
    pub category: u8,
}

/// The month records of a claim in a window, in order.
#[derive(Clone, Debug)]
pub struct MonthRecords {
    months: ClaimMonths,
    duration: Duration,
    window_first: Day,
    /// f and l: the claim is exposed from f to l.
    exposed_first: Day,
    exposed_last: Day,
    /// The termination of a claim closed in the window.
    closing: Option<Termination>,
    /// The next claim month and its first day; none is left once that day is after l.
    k: u32,
    start: Day,
}

/// `window` must have passed check 1.
pub fn month_records(claim: &CheckedClaim, window: Window) -> MonthRecords {
    let closing = claim.termination.filter(|t| window.first <= t.day && t.day <= window.last);
    let f = claim.bcd.max(window.first);
    let l = claim.termination.map_or(window.last, |t| window.last.min(t.day));

    let (mut k, mut start) = (1, f);
    if f <= l {
        // A claim month has at most 31 days, so this one starts on f or before; walk on to the one that holds f.
        k = (f - claim.bcd) as u32 / 31 + 1;
        while claim.months.start(k + 1) <= f {
            k += 1;
        }
        start = claim.months.start(k);
    }
    MonthRecords {
        months: claim.months,
        duration: claim.first_duration.later(k - 1),
        window_first: window.first,
        exposed_first: f,
        exposed_last: l,
        closing,
        k,
        start,
    }
}

impl Iterator for MonthRecords {
    type Item = MonthRecord;

    #[inline]
    fn next(&mut self) -> Option<MonthRecord> {
        let (s, l) = (self.start, self.exposed_last);
        if s > l {
            return None;
        }
        let next_start = self.months.start(self.k + 1);
        let p = next_start + -1;

        let mut category = 0;
        let begin = if s >= self.window_first { 0 } else { 30 - (p - self.window_first + 1) };
        let until = if l > p {
            30
        } else {
            match self.closing {
                None => 30 - (p - l),
                Some(t) => {
                    category = t.category;
                    closing_until(s, p, t)
                }
            }
        };

        let record = MonthRecord {
            duration: self.duration,
            first: s.max(self.exposed_first),
            last: p.min(l),
            thirtieths: Thirtieths(until - begin),
            category,
        };
        self.k += 1;
        self.start = next_start;
        self.duration = self.duration.later(1);
        Some(record)
    }
}

/// U of the closing month s..p.
fn closing_until(s: Day, p: Day, t: Termination) -> i32 {
    if t.category == RECOVERY || t.category == DEATH {
        30
    } else if t.day_of_month >= 27 {
        30 - (p - t.day)
    } else {
        (t.day - s + 1).min(30)
    }
}

/// The listing: six numbers per month record into `list`; answers the number of records. Checks 1 to 5 and 10.
pub fn listing(first: Date, last: Date, claim: &Claim, list: &mut [i32]) -> Result<usize, Refusal> {
    let window = Window::of_dates(first, last)?;
    let claim = claim.check()?;
    let records = month_records(&claim, window);
    let count = records.clone().count();
    if list.len() < 6 * count {
        return Err(Refusal::ShortList);
    }
    for (row, record) in list.chunks_exact_mut(6).zip(records) {
        row[0] = record.duration.0 as i32;
        row[1] = record.first.0;
        row[2] = record.last.0;
        row[3] = record.thirtieths.0;
        row[4] = record.first.year_month();
        row[5] = record.category as i32;
    }
    Ok(count)
}
