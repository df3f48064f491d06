//! Study: its sums by duration group, by count and weighted by benefit, opening, the adding and withdrawing of
//! claims, and the joining of studies.

use crate::calendar::{Date, Day};
use crate::claim::{CheckedClaim, Claim, Duration, MOST_BENEFIT};
use crate::months::{month_records, MonthRecord, Window};
use crate::rates::{Rates, RatesByDuration};
use crate::Refusal;

pub const MOST_CLAIMS: u32 = 500_000;
pub const MOST_THIRTIETHS: i64 = 27_000_000_000;
pub const MOST_EXPECTED: i64 = 27_000_000_000_000_000;

/// How much more the weighted set may hold.
const WEIGHTED_BOUNDS: i64 = MOST_BENEFIT as i64;

/// The numbers of a group's sums as a list.
pub const GROUP_LENGTH: usize = 8;
/// The numbers of a study as a list: first and last day, claims taken, and two sets of five groups.
pub const STUDY_LENGTH: usize = WEIGHTED_AT + 5 * GROUP_LENGTH;
/// Where the sums by count and the weighted ones start.
pub const SUMS_AT: usize = 3;
pub const WEIGHTED_AT: usize = SUMS_AT + 5 * GROUP_LENGTH;

/// The duration group, 1 to 5.
pub fn duration_group(duration: Duration) -> usize {
    match duration.0 {
        0..=3 => 1,
        4..=24 => 2,
        25..=60 => 3,
        61..=120 => 4,
        _ => 5,
    }
}

/// The sums of one duration group, by count or weighted.
#[derive(Clone, Copy, Debug, Default, PartialEq, Eq)]
pub struct GroupSums {
    pub thirtieths: i64,
    /// Closing counts: recovery, death, settlement, max-out, limit.
    pub closings: [u32; 5],
    /// In 1/30,000,000 of a count.
    pub expected_recoveries: i64,
    pub expected_deaths: i64,
}

impl GroupSums {
    /// Eight numbers: thirtieths, five closing counts, expected recoveries and deaths.
    pub fn numbers(&self) -> [i64; GROUP_LENGTH] {
        let [recovery, death, settlement, max_out, limit] = self.closings.map(i64::from);
        [self.thirtieths, recovery, death, settlement, max_out, limit, self.expected_recoveries, self.expected_deaths]
    }

    /// A month's thirtieths and closing by count, and what its rates make it expect.
    #[inline]
    pub fn add_month(&mut self, record: &MonthRecord, cell: &impl RatesByDuration) {
        let (recovery, death) = cell.at(record.duration);
        let thirtieths = record.thirtieths.0 as i64;
        self.thirtieths += thirtieths;
        // Only a single duration's sum with a list that was never prepared can pass 64 bits: check 9 holds a group's within.
        self.expected_recoveries = self.expected_recoveries.wrapping_add(thirtieths * recovery);
        self.expected_deaths = self.expected_deaths.wrapping_add(thirtieths * death);
        if record.category != 0 {
            self.closings[record.category as usize - 1] += 1;
        }
    }

    fn add(&mut self, other: &GroupSums) {
        self.thirtieths += other.thirtieths;
        for (count, more) in self.closings.iter_mut().zip(other.closings) {
            *count += more;
        }
        self.expected_recoveries += other.expected_recoveries;
        self.expected_deaths += other.expected_deaths;
    }

    /// None if a sum would not fit its field.
    fn plus(&self, other: &GroupSums) -> Option<GroupSums> {
        let mut closings = self.closings;
        for (count, more) in closings.iter_mut().zip(other.closings) {
            *count = count.checked_add(more)?;
        }
        Some(GroupSums {
            thirtieths: self.thirtieths.checked_add(other.thirtieths)?,
            closings,
            expected_recoveries: self.expected_recoveries.checked_add(other.expected_recoveries)?,
            expected_deaths: self.expected_deaths.checked_add(other.expected_deaths)?,
        })
    }

    /// None if a closing count or sum would fall below zero.
    fn minus(&self, other: &GroupSums) -> Option<GroupSums> {
        let mut closings = self.closings;
        for (count, less) in closings.iter_mut().zip(other.closings) {
            *count = count.checked_sub(less)?;
        }
        Some(GroupSums {
            thirtieths: self.thirtieths - other.thirtieths,
            closings,
            expected_recoveries: self.expected_recoveries - other.expected_recoveries,
            expected_deaths: self.expected_deaths - other.expected_deaths,
        })
    }

    fn times(&self, weight: u8) -> GroupSums {
        GroupSums {
            thirtieths: self.thirtieths * weight as i64,
            closings: self.closings.map(|count| count * weight as u32),
            expected_recoveries: self.expected_recoveries * weight as i64,
            expected_deaths: self.expected_deaths * weight as i64,
        }
    }

    /// Within check 9's bounds, `times` times.
    fn is_within(&self, times: i64) -> bool {
        let within = |sum: i64, most: i64| -times * most <= sum && sum <= times * most;
        within(self.thirtieths, MOST_THIRTIETHS)
            && within(self.expected_recoveries, MOST_EXPECTED)
            && within(self.expected_deaths, MOST_EXPECTED)
            && self.closings.iter().all(|&count| count as i64 <= times * MOST_CLAIMS as i64)
    }
}

#[derive(Clone, Copy, Debug, PartialEq, Eq)]
pub struct Study {
    pub window: Window,
    pub claims_taken: u32,
    pub groups: [GroupSums; 5],
    /// The second set: each claim's share times its benefit.
    pub weighted: [GroupSums; 5],
}

impl Study {
    /// What a refused opening gives: zero sums, no claims taken and the window 1950-01-01 alone.
    pub fn unopened() -> Study {
        Study::over(Window { first: Day::FIRST, last: Day::FIRST })
    }

    fn over(window: Window) -> Study {
        Study { window, claims_taken: 0, groups: [GroupSums::default(); 5], weighted: [GroupSums::default(); 5] }
    }

    /// First and last day of the window, claims taken, then eight sums for each group, and as many for each group of the weighted set.
    pub fn numbers(&self) -> [i64; STUDY_LENGTH] {
        let mut numbers = [0; STUDY_LENGTH];
        numbers[..3].copy_from_slice(&[self.window.first.0 as i64, self.window.last.0 as i64, self.claims_taken as i64]);
        for (row, group) in numbers[SUMS_AT..].chunks_exact_mut(GROUP_LENGTH).zip(self.groups.iter().chain(&self.weighted)) {
            row.copy_from_slice(&group.numbers());
        }
        numbers
    }

    /// The study of any numbers. One that its field can't hold is refused as its place says, a day by check 1, claims taken and closings by
    /// check 9: the field then has a number that this check refuses too, and a refused study is never written back.
    pub fn of_numbers(numbers: &[i64; STUDY_LENGTH]) -> Study {
        // No date.
        let day = |number: i64| Day(i32::try_from(number).unwrap_or(i32::MAX));
        // Beyond every bound, also that of the weighted set.
        let unsigned = |number: i64| u32::try_from(number).unwrap_or(u32::MAX);
        let window = Window { first: day(numbers[0]), last: day(numbers[1]) };
        let mut study = Study { claims_taken: unsigned(numbers[2]), ..Study::over(window) };
        for (group, row) in study.groups.iter_mut().chain(&mut study.weighted).zip(numbers[SUMS_AT..].chunks_exact(GROUP_LENGTH)) {
            group.thirtieths = row[0];
            for (count, &number) in group.closings.iter_mut().zip(&row[1..6]) {
                *count = unsigned(number);
            }
            group.expected_recoveries = row[6];
            group.expected_deaths = row[7];
        }
        study
    }

    /// Check 1.
    pub fn open(first: Date, last: Date) -> Result<Study, Refusal> {
        Window::of_dates(first, last).map(Study::over)
    }

    /// Checks 1 to 9 and 16; a refused claim leaves the study as it was.
    pub fn add<R: Rates>(&mut self, claim: &Claim, rates: &R) -> Result<(), Refusal> {
        let (claim, cell) = self.check_claim(claim, rates)?;
        self.check_room(MOST_CLAIMS - 1)?;
        each_share(&claim, self.window, &cell, |group, share| {
            self.groups[group - 1].add(share);
            self.weighted[group - 1].add(&share.times(claim.weight));
        });
        self.claims_taken += 1;
        Ok(())
    }

    /// Takes a claim back. Checks as adding, save that 500,000 claims may be taken; then 18: no claims taken, or a closing count or a
    /// weighted closing sum that would fall below zero. A refused claim leaves the study as it was.
    pub fn withdraw<R: Rates>(&mut self, claim: &Claim, rates: &R) -> Result<(), Refusal> {
        let (claim, cell) = self.check_claim(claim, rates)?;
        self.check_room(MOST_CLAIMS)?;
        *self = self.without(&claim, &cell).ok_or(Refusal::NotTaken)?;
        Ok(())
    }

    fn without(&self, claim: &CheckedClaim, cell: &impl RatesByDuration) -> Option<Study> {
        let mut shares = [GroupSums::default(); 5];
        each_share(claim, self.window, cell, |group, share| shares[group - 1] = *share);
        let mut left = Study { claims_taken: self.claims_taken.checked_sub(1)?, ..*self };
        for (group, share) in left.groups.iter_mut().zip(&shares) {
            *group = group.minus(share)?;
        }
        for (group, share) in left.weighted.iter_mut().zip(&shares) {
            *group = group.minus(&share.times(claim.weight))?;
        }
        Some(left)
    }

    /// Pools another study of the same window into this one. Check 1 of either; 15: unequal windows; 9 of either, save that 500,000 claims
    /// may be taken, and of both together. A refusal leaves the study as it was.
    pub fn join(&mut self, other: &Study) -> Result<(), Refusal> {
        self.window.check()?;
        other.window.check()?;
        if self.window != other.window {
            return Err(Refusal::OtherWindow);
        }
        self.check_room(MOST_CLAIMS)?;
        other.check_room(MOST_CLAIMS)?;
        let joined = self.with(other).ok_or(Refusal::Full)?;
        joined.check_room(MOST_CLAIMS)?;
        *self = joined;
        Ok(())
    }

    /// None if a number would not fit its field.
    fn with(&self, other: &Study) -> Option<Study> {
        let mut joined = Study { claims_taken: self.claims_taken.checked_add(other.claims_taken)?, ..*self };
        for (group, more) in joined.groups.iter_mut().zip(&other.groups) {
            *group = group.plus(more)?;
        }
        for (group, more) in joined.weighted.iter_mut().zip(&other.weighted) {
            *group = group.plus(more)?;
        }
        Some(joined)
    }

    /// Checks 1 to 8 and 16.
    fn check_claim<R: Rates>(&self, claim: &Claim, rates: &R) -> Result<(CheckedClaim, R::Cell), Refusal> {
        self.window.check()?;
        let claim = claim.check()?;
        let cell = rates.cell(claim.cell.into())?;
        Ok((claim, cell))
    }

    /// Check 9, with at most so many claims taken.
    fn check_room(&self, most_taken: u32) -> Result<(), Refusal> {
        let within =
            self.groups.iter().all(|group| group.is_within(1)) && self.weighted.iter().all(|group| group.is_within(WEIGHTED_BOUNDS));
        if self.claims_taken <= most_taken && within {
            Ok(())
        } else {
            Err(Refusal::Full)
        }
    }
}

/// Hands a claim's share of each duration group that its months lie in to `take`, by count. The months of a group follow each other.
fn each_share(claim: &CheckedClaim, window: Window, cell: &impl RatesByDuration, mut take: impl FnMut(usize, &GroupSums)) {
    let mut group = 1;
    let mut sums = GroupSums::default();
    for record in month_records(claim, window) {
        let record_group = duration_group(record.duration);
        if record_group != group {
            take(group, &sums);
            (group, sums) = (record_group, GroupSums::default());
        }
        sums.add_month(&record, cell);
    }
    take(group, &sums);
}
