//! The sums of each duration: the run over a claim file, by count, with a row for each month of duration.

use crate::claim::Claim;
use crate::months::{month_records, Window};
use crate::rates::{PreparedTable, RateTable, Rates};
use crate::run::run_each;
use crate::study::{GroupSums, GROUP_LENGTH};

pub const MOST_ROWS: usize = 2_000;
/// The numbers before the rows: number, block, place, claims taken.
pub const ROWS_AT: usize = 4;

/// What such a run gives: as a file run, and row d at place d − 1. The last row has its duration and all later ones.
#[derive(Clone, Debug, PartialEq, Eq)]
pub struct DurationRun {
    pub refused: u8,
    pub block: u32,
    pub place: u32,
    pub claims_taken: u32,
    pub rows: Vec<GroupSums>,
}

/// How many rows a list of this length has, 1 to 2,000; none if it is the length of no such list.
pub fn rows_in(length: usize) -> Option<usize> {
    let numbers = length.checked_sub(ROWS_AT)?;
    let rows = numbers / GROUP_LENGTH;
    (numbers.is_multiple_of(GROUP_LENGTH) && (1..=MOST_ROWS).contains(&rows)).then_some(rows)
}

/// Runs a file as `run_file` does, into so many rows, at least one.
pub fn run_durations(file: &[u8], rates: &[u32], rows: usize) -> DurationRun {
    run_rows(file, &RateTable::new(rates), rows)
}

/// As `run_durations`, with a prepared table.
pub fn run_prepared_durations(file: &[u8], table: &[u32], rows: usize) -> DurationRun {
    run_rows(file, &PreparedTable(table), rows)
}

fn run_rows(file: &[u8], rates: &impl Rates, rows: usize) -> DurationRun {
    let mut sums = vec![GroupSums::default(); rows];
    let run = run_each(file, rates, |window, claim| add_months(&mut sums, window, claim, rates));
    DurationRun { refused: run.refused, block: run.block, place: run.place, claims_taken: run.study.claims_taken, rows: sums }
}

/// Adds each month of an accepted claim to its duration's row.
fn add_months(rows: &mut [GroupSums], window: Window, claim: &Claim, rates: &impl Rates) {
    let (Ok(claim), Ok(cell)) = (claim.check(), rates.cell(claim.cell.into())) else { unreachable!("{claim} was accepted") };
    let last = rows.len() - 1;
    for record in month_records(&claim, window) {
        rows[last.min(record.duration.0 as usize - 1)].add_month(&record, &cell);
    }
}

impl DurationRun {
    /// Number, block, place, claims taken, then eight numbers for each row.
    pub fn numbers(&self) -> Vec<i64> {
        let mut numbers = Vec::with_capacity(ROWS_AT + GROUP_LENGTH * self.rows.len());
        numbers.extend::<[i64; ROWS_AT]>([self.refused.into(), self.block.into(), self.place.into(), self.claims_taken.into()]);
        numbers.extend(self.rows.iter().flat_map(GroupSums::numbers));
        numbers
    }
}
