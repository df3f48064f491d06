//! Rates: the lent table, plain or prepared, its checks and the rates of a cell.

use crate::claim::Duration;
use crate::Refusal;
use std::cell::OnceCell;

/// Rates of one kind per cell: durations 2 to 480.
pub const DURATIONS: usize = 479;
pub const FIRST_RATED: u32 = 2;
pub const LAST_RATED: u32 = 480;
/// Numbers per cell: recovery rates, then death rates.
pub const CELL_LENGTH: usize = 2 * DURATIONS;
pub const MOST_CELLS: usize = 1_024;
/// One, in millionths.
pub const MILLION: u32 = 1_000_000;

/// A lent table that studies take rates from.
pub trait Rates {
    type Cell: RatesByDuration;
    /// Checks 6 to 8.
    fn cell(&self, cell: u32) -> Result<Self::Cell, Refusal>;
}

/// The rates of one cell.
pub trait RatesByDuration {
    /// Recovery and death rate.
    fn at(&self, duration: Duration) -> (i64, i64);
}

/// Check 6 of the number of rates: how many cells they are, 1 to 1,024.
fn cells_of(length: usize) -> Result<usize, Refusal> {
    match length / CELL_LENGTH {
        cells @ 1..=MOST_CELLS if length.is_multiple_of(CELL_LENGTH) => Ok(cells),
        _ => Err(Refusal::RateTable),
    }
}

/// Check 7.
fn check_cell(cell: u32, cells: usize) -> Result<usize, Refusal> {
    if (cell as usize) < cells {
        Ok(cell as usize)
    } else {
        Err(Refusal::Cell)
    }
}

/// The numbers of a cell: rates, or their sums.
#[derive(Clone, Copy)]
struct Kinds<'a> {
    recovery: &'a [u32; DURATIONS],
    death: &'a [u32; DURATIONS],
}

impl<'a> Kinds<'a> {
    fn of(table: &'a [u32], cell: usize) -> Kinds<'a> {
        let (recovery, death) = table[cell * CELL_LENGTH..][..CELL_LENGTH].split_at(DURATIONS);
        Kinds { recovery: recovery.try_into().unwrap(), death: death.try_into().unwrap() }
    }
}

/// Check 8 of the rates of a cell.
fn are_sound(recovery: &[u32], death: &[u32]) -> bool {
    recovery.iter().zip(death).all(|(&recovery, &death)| recovery as u64 + death as u64 <= MILLION as u64)
}

/// A lent rate table, whose cells are checked once, when first asked for.
pub struct RateTable<'a> {
    rates: &'a [u32],
    cells: Result<usize, Refusal>,
    /// Of each cell whether no duration fails check 8.
    sound: Vec<OnceCell<bool>>,
}

/// The rates of one cell that passed check 8.
#[derive(Clone, Copy)]
pub struct CellRates<'a>(Kinds<'a>);

impl<'a> RateTable<'a> {
    pub fn new(rates: &'a [u32]) -> RateTable<'a> {
        let cells = cells_of(rates.len());
        RateTable { rates, cells, sound: vec![OnceCell::new(); cells.unwrap_or(0)] }
    }
}

impl<'a> Rates for RateTable<'a> {
    type Cell = CellRates<'a>;

    fn cell(&self, cell: u32) -> Result<CellRates<'a>, Refusal> {
        let cell = check_cell(cell, self.cells?)?;
        let rates = Kinds::of(self.rates, cell);
        if !self.sound[cell].get_or_init(|| are_sound(rates.recovery, rates.death)) {
            return Err(Refusal::Rate);
        }
        Ok(CellRates(rates))
    }
}

impl CellRates<'_> {
    /// A duration after 480 uses 480's.
    #[inline]
    fn recovery_and_death(&self, duration: Duration) -> (u32, u32) {
        let i = (duration.0.min(LAST_RATED) - FIRST_RATED) as usize;
        (self.0.recovery[i], self.0.death[i])
    }

    /// S: recovery plus death rate.
    pub fn termination_rate(&self, duration: Duration) -> u32 {
        let (recovery, death) = self.recovery_and_death(duration);
        recovery + death
    }
}

impl RatesByDuration for CellRates<'_> {
    #[inline]
    fn at(&self, duration: Duration) -> (i64, i64) {
        let (recovery, death) = self.recovery_and_death(duration);
        (recovery.into(), death.into())
    }
}

/// The last number of a table to be prepared, and of a prepared one.
const TO_BE_PREPARED: u32 = 0;
const PREPARED: u32 = 1;
/// The first number of an unsound cell of a prepared table.
const UNSOUND: u32 = u32::MAX;

/// Prepares a table of rates and a last number 0 in place: the rates of each kind of a sound cell become their running sums, an unsound
/// cell is marked in its first number, and the last number becomes 1. Check 6; a refused table is untouched.
pub fn prepare(table: &mut [u32]) -> Result<(), Refusal> {
    let Some((last, rates)) = table.split_last_mut() else { return Err(Refusal::RateTable) };
    cells_of(rates.len())?;
    if *last != TO_BE_PREPARED {
        return Err(Refusal::RateTable);
    }
    for cell in rates.chunks_exact_mut(CELL_LENGTH) {
        let (recovery, death) = cell.split_at_mut(DURATIONS);
        if are_sound(recovery, death) {
            sum_up(recovery);
            sum_up(death);
        } else {
            recovery[0] = UNSOUND;
        }
    }
    *last = PREPARED;
    Ok(())
}

/// Each number becomes the sum of the numbers up to it.
fn sum_up(rates: &mut [u32]) {
    let mut sum = 0;
    for rate in rates {
        sum += *rate;
        *rate = sum;
    }
}

/// A lent prepared table, or any list that its checks take for one.
pub struct PreparedTable<'a>(pub &'a [u32]);

/// The running sums of the rates of one cell.
#[derive(Clone, Copy)]
pub struct CellSums<'a>(Kinds<'a>);

impl<'a> Rates for PreparedTable<'a> {
    type Cell = CellSums<'a>;

    fn cell(&self, cell: u32) -> Result<CellSums<'a>, Refusal> {
        let Some((&PREPARED, sums)) = self.0.split_last() else { return Err(Refusal::RateTable) };
        let cell = check_cell(cell, cells_of(sums.len())?)?;
        let sums = Kinds::of(sums, cell);
        if sums.recovery[0] > MILLION {
            return Err(Refusal::Rate);
        }
        Ok(CellSums(sums))
    }
}

impl RatesByDuration for CellSums<'_> {
    /// What the sums grow by at the duration; less than nothing in a list that was never prepared.
    fn at(&self, duration: Duration) -> (i64, i64) {
        let growth = |sums: &[u32; DURATIONS]| sum_to(sums, duration.0) - sum_to(sums, duration.0 - 1);
        (growth(self.0.recovery), growth(self.0.death))
    }
}

/// P: the sum up to a duration, which grows as at 480 from there on.
fn sum_to(sums: &[u32; DURATIONS], duration: u32) -> i64 {
    match duration {
        1 => 0,
        2..=LAST_RATED => sums[(duration - FIRST_RATED) as usize].into(),
        _ => {
            let [before, last] = [LAST_RATED - 1, LAST_RATED].map(|duration| sum_to(sums, duration));
            last + (duration - LAST_RATED) as i64 * (last - before)
        }
    }
}
