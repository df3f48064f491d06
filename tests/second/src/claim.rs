//! Claim: its fields, checks 2 to 5 and 16, elimination period, first duration, category and weight.

use crate::calendar::{ClaimMonths, Date, Day};
use crate::Refusal;
use std::fmt;

pub const RECOVERY: u8 = 1;
pub const DEATH: u8 = 2;
pub const SETTLEMENT: u8 = 3;
pub const MAX_OUT: u8 = 4;
pub const LIMIT: u8 = 5;
/// A code alone: its category is recovery.
pub const CHANGE_OF_DEFINITION: u8 = 6;

pub const OPEN: u8 = 0;
pub const CLOSED: u8 = 1;

/// The highest monthly benefit, in hundreds of dollars.
pub const MOST_BENEFIT: u8 = 200;

/// A duration since disability, in months.
#[derive(Clone, Copy, Debug, PartialEq, Eq, PartialOrd, Ord)]
pub struct Duration(pub u32);

impl Duration {
    pub fn later(self, months: u32) -> Duration {
        Duration(self.0 + months)
    }
}

/// A claim as the claim file gives it.
#[derive(Clone, Copy, Debug, Default, PartialEq, Eq)]
pub struct Claim {
    pub number: u32,
    pub disability: Date,
    pub bcd: Date,
    pub termination: Date,
    pub maximum: Date,
    pub status: u8,
    pub code: u8,
    pub cell: u16,
    /// The monthly benefit in hundreds of dollars.
    pub benefit: u8,
}

/// A claim that passed checks 2 to 5 and 16.
#[derive(Clone, Copy, Debug)]
pub struct CheckedClaim {
    pub bcd: Day,
    pub months: ClaimMonths,
    pub first_duration: Duration,
    /// Of a closed claim.
    pub termination: Option<Termination>,
    pub cell: u16,
    /// What its share counts in the weighted set: the benefit, but 1 for a benefit of 0.
    pub weight: u8,
}

#[derive(Clone, Copy, Debug)]
pub struct Termination {
    pub day: Day,
    pub day_of_month: u8,
    pub category: u8,
}

impl Claim {
    /// Checks 2 to 5, in the table's order, and 16 between 4 and 5.
    pub fn check(&self) -> Result<CheckedClaim, Refusal> {
        // 2: a termination date is asked for in closed claims only.
        let disability = self.disability.day_number().ok_or(Refusal::Date)?;
        let bcd = self.bcd.day_number().ok_or(Refusal::Date)?;
        let terminated = match self.status {
            CLOSED => Some(self.termination.day_number().ok_or(Refusal::Date)?),
            _ => None,
        };
        let maximum = self.maximum.day_number();
        if maximum.is_none() && !self.maximum.is_missing() {
            return Err(Refusal::Date);
        }

        // 3
        let sound = match self.status {
            OPEN => self.code == 0 && self.termination.is_missing(),
            CLOSED => (RECOVERY..=CHANGE_OF_DEFINITION).contains(&self.code),
            _ => false,
        };
        if !sound {
            return Err(Refusal::Status);
        }

        // 4
        if bcd < disability || terminated.is_some_and(|t| t < bcd) {
            return Err(Refusal::Sequence);
        }

        // 16
        if self.benefit > MOST_BENEFIT {
            return Err(Refusal::Benefit);
        }

        // 5
        let elimination_period = bcd - disability;
        if elimination_period < 15 {
            return Err(Refusal::ShortElimination);
        }

        Ok(CheckedClaim {
            bcd,
            months: ClaimMonths::of(self.bcd),
            first_duration: first_duration(elimination_period),
            termination: terminated.map(|day| Termination {
                day,
                day_of_month: self.termination.day,
                category: category(self.code, day, maximum),
            }),
            cell: self.cell,
            weight: self.benefit.max(1),
        })
    }
}

impl fmt::Display for Claim {
    fn fmt(&self, f: &mut fmt::Formatter) -> fmt::Result {
        let Claim { number, disability, bcd, termination, maximum, status, code, cell, benefit } = self;
        write!(f, "claim {number}: disability {disability}, BCD {bcd}, termination {termination}, maximum {maximum}, ")?;
        write!(f, "status {status}, code {code}, cell {cell}, benefit {benefit}")
    }
}

/// floor((EP + 15) / 30) + 1, of an EP of at least 15 days.
fn first_duration(elimination_period: i32) -> Duration {
    Duration((elimination_period as u32 + 15) / 30 + 1)
}

/// The code, but recovery for a change of definition, and max-out if the termination date is 45 days or less before or after a known
/// maximum date.
fn category(code: u8, termination: Day, maximum: Option<Day>) -> u8 {
    match maximum {
        Some(maximum) if (termination - maximum).abs() <= 45 => MAX_OUT,
        _ if code == CHANGE_OF_DEFINITION => RECOVERY,
        _ => code,
    }
}
