//! Calendar: dates, day numbers, and where claim months start.

use std::fmt;
use std::ops::{Add, Sub};

/// A day number: 0 is 1950-01-01.
#[derive(Clone, Copy, Debug, PartialEq, Eq, PartialOrd, Ord)]
pub struct Day(pub i32);

/// A year, month and day as they stand in the claim file, a date or not.
#[derive(Clone, Copy, Debug, Default, PartialEq, Eq)]
pub struct Date {
    pub year: u16,
    pub month: u8,
    pub day: u8,
}

const FIRST_YEAR: u16 = 1950;
const LAST_YEAR: u16 = 2099;

/// Calendar months are counted from January 1950 (0). The last claim month may end in January 2100 (1,800), so the table runs to the
/// start of February 2100.
const MONTH_STARTS: usize = (LAST_YEAR - FIRST_YEAR + 1) as usize * 12 + 2;

static MONTH_START: [i32; MONTH_STARTS] = month_starts();

const fn is_leap(year: u16) -> bool {
    year.is_multiple_of(4) && (!year.is_multiple_of(100) || year.is_multiple_of(400))
}

pub const fn month_length(year: u16, month: u8) -> u8 {
    match month {
        4 | 6 | 9 | 11 => 30,
        2 if is_leap(year) => 29,
        2 => 28,
        _ => 31,
    }
}

const fn month_starts() -> [i32; MONTH_STARTS] {
    let mut starts = [0; MONTH_STARTS];
    let mut i = 1;
    while i < MONTH_STARTS {
        let before = i - 1;
        let length = month_length(FIRST_YEAR + (before / 12) as u16, (before % 12 + 1) as u8);
        starts[i] = starts[before] + length as i32;
        i += 1;
    }
    starts
}

impl Day {
    pub const FIRST: Day = Day(0);
    pub const LAST: Day = Day(54_786);

    pub fn is_date(self) -> bool {
        Day::FIRST <= self && self <= Day::LAST
    }

    /// The calendar month a day of the calendar lies in, counted from January 1950.
    fn month(self) -> usize {
        MONTH_START.partition_point(|&start| start <= self.0) - 1
    }

    /// Year × 12 + month − 1.
    pub fn year_month(self) -> i32 {
        FIRST_YEAR as i32 * 12 + self.month() as i32
    }

    /// The date of a day of the calendar.
    pub fn date(self) -> Date {
        let month = self.month();
        Date { year: FIRST_YEAR + (month / 12) as u16, month: (month % 12 + 1) as u8, day: (self.0 - MONTH_START[month] + 1) as u8 }
    }
}

impl Sub for Day {
    type Output = i32;
    fn sub(self, earlier: Day) -> i32 {
        self.0 - earlier.0
    }
}

impl Add<i32> for Day {
    type Output = Day;
    fn add(self, days: i32) -> Day {
        Day(self.0 + days)
    }
}

impl Date {
    /// Missing is year, month and day all zero.
    pub const MISSING: Date = Date { year: 0, month: 0, day: 0 };

    pub const fn new(year: u16, month: u8, day: u8) -> Date {
        Date { year, month, day }
    }

    pub fn is_missing(self) -> bool {
        self == Date::MISSING
    }

    pub fn is_date(self) -> bool {
        (FIRST_YEAR..=LAST_YEAR).contains(&self.year)
            && (1..=12).contains(&self.month)
            && 1 <= self.day
            && self.day <= month_length(self.year, self.month)
    }

    /// The day number, if this is a date.
    pub fn day_number(self) -> Option<Day> {
        self.is_date().then(|| Day(MONTH_START[self.calendar_month()] + self.day as i32 - 1))
    }

    fn calendar_month(self) -> usize {
        (self.year - FIRST_YEAR) as usize * 12 + self.month as usize - 1
    }

    /// The claim file's four bytes: year in two, month, day.
    pub fn to_bytes(self) -> [u8; 4] {
        let [low, high] = self.year.to_le_bytes();
        [low, high, self.month, self.day]
    }

    pub fn from_bytes([low, high, month, day]: [u8; 4]) -> Date {
        Date { year: u16::from_le_bytes([low, high]), month, day }
    }

    /// The four bytes as one number, low byte first.
    pub fn to_number(self) -> u32 {
        u32::from_le_bytes(self.to_bytes())
    }

    pub fn from_number(number: u32) -> Date {
        Date::from_bytes(number.to_le_bytes())
    }
}

impl fmt::Display for Date {
    fn fmt(&self, f: &mut fmt::Formatter) -> fmt::Result {
        write!(f, "{:04}-{:02}-{:02}", self.year, self.month, self.day)
    }
}

/// The starts of a claim's months: all lie the same number of days after the start of their calendar month, or before the start of the
/// calendar month after it.
#[derive(Clone, Copy, Debug)]
pub struct ClaimMonths {
    /// The calendar month whose start claim month 1 is reckoned from: the BCD's, or the one after it.
    month: usize,
    /// Days from there.
    days: i32,
}

impl ClaimMonths {
    /// `bcd` must be a date.
    pub fn of(bcd: Date) -> ClaimMonths {
        let month = bcd.calendar_month();
        if bcd.day <= 26 {
            // On that day of every month.
            ClaimMonths { month, days: bcd.day as i32 - 1 }
        } else {
            // As many days before the last day of every month as BCD is.
            let o = (month_length(bcd.year, bcd.month) - bcd.day) as i32;
            ClaimMonths { month: month + 1, days: -1 - o }
        }
    }

    /// The first day of claim month k (k = 1, 2, ..), which must start in January 2100 or before.
    #[inline]
    pub fn start(&self, k: u32) -> Day {
        Day(MONTH_START[self.month + k as usize - 1] + self.days)
    }
}
