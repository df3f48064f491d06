//! Cells: tables about each limit, and claims and look-ups whose cell is at, below and above it, in one byte and in two.

use crate::inputs::{sound_claims, STUDY_WINDOW};
use crate::one_input::{
    compare_add, compare_open, compare_plain_run, compare_prepare, compare_prepared_run, compare_read_block, compare_reserve_factor,
    compare_valuation_rate, compare_write_block, same, Answer, CELL, RATE, RATE_TABLE,
};
use crate::{test, Outcome, Test};
use second::block::{claim_record, BLOCK_LENGTH, CLAIM_LENGTH, RECORDS_LENGTH};
use second::claim::Claim;
use second::generate::{claim_file, sound_claim, sound_rates};
use second::rates::{CELL_LENGTH, DURATIONS, MOST_CELLS};
use second::rng::Rng;
use second::study::STUDY_LENGTH;

pub const TESTS: &[Test] = &[
    test("cells: adding", 68, adding),
    test("cells: claim files", 69, files),
    test("cells: valuation rate and reserve factor", 70, look_ups),
    test("cells: every number in a record and a block", 71, every_number),
];

/// The numbers of cells; the last is too many.
const SIZES: [usize; 9] = [1, 64, 65, 255, 256, 257, MOST_CELLS - 1, MOST_CELLS, MOST_CELLS + 1];

/// A table of so many cells, each with rates of its own, and which of them are unsound.
struct Table {
    rates: Vec<u32>,
    unsound: Vec<bool>,
}

impl Table {
    fn new(rng: &mut Rng, cells: usize) -> Table {
        let mut rates = sound_rates(rng, cells);
        let mut unsound = vec![false; cells];
        // The first and the last cell stay sound in most tables.
        for cell in 0..cells {
            if rng.one_in(if cell == 0 || cell == cells - 1 { 20 } else { 5 }) {
                unsound[cell] = true;
                let duration = rng.below(DURATIONS as u64) as usize;
                rates[cell * CELL_LENGTH + duration] = 1_000_001;
            }
        }
        Table { rates, unsound }
    }

    fn cells(&self) -> usize {
        self.unsound.len()
    }

    /// What checks 6 to 8 give for a cell.
    fn refusal(&self, cell: u32) -> u8 {
        match self.unsound.get(cell as usize) {
            _ if self.cells() > MOST_CELLS => RATE_TABLE,
            None => CELL,
            Some(true) => RATE,
            Some(false) => 0,
        }
    }

    /// About the table's limit, a byte's and the most cells', one of its own, or any.
    fn any_cell(&self, rng: &mut Rng) -> u16 {
        let (own, high) = (rng.below(self.cells() as u64) as u16, (rng.below(256) as u16) << 8);
        match rng.below(4) {
            0 => {
                let limit = rng.pick(&[self.cells(), 64, 256, 512, MOST_CELLS]) as i64;
                rng.range(limit - 2, limit + 1).max(0) as u16
            }
            1 => own,
            // Its low byte with another high one, and its bytes the other way round.
            2 => rng.pick(&[own % 256 + high, own.swap_bytes()]),
            _ => rng.bits() as u16,
        }
    }
}

fn adding(rng: &mut Rng) -> Outcome {
    let mut n = 0;
    for cells in SIZES {
        let table = Table::new(rng, cells);
        let (_, mut study) = compare_open(STUDY_WINDOW.0, STUDY_WINDOW.1, STUDY_LENGTH)?;
        for _ in 0..5_000 {
            let claim = Claim { cell: table.any_cell(rng), ..sound_claim(rng) };
            let answer = compare_add(&mut study, &claim_record(&claim), &table.rates)?;
            same(answer, table.refusal(claim.cell.into()), || format!("{claim}, of {cells} cells"))?;
            n += 1;
        }
    }
    Ok(n)
}

/// Files with the rates and with their prepared table.
fn files(rng: &mut Rng) -> Outcome {
    let mut n = 0;
    for cells in SIZES {
        let table = Table::new(rng, cells);
        let (_, prepared) = compare_prepare(&[&table.rates[..], &[0]].concat())?;
        for _ in 0..2_500 {
            // Two claims of sound cells, if there are some, and one of any.
            let mut claims = sound_claims(rng, 3, cells);
            claims[0].cell = 0;
            claims[2].cell = table.any_cell(rng);
            let file = claim_file(STUDY_WINDOW, &claims, None);
            let numbers = compare_plain_run(&file, &table.rates)?;
            same(compare_prepared_run(&file, &prepared)?, numbers, || format!("prepared as first and plain as second, {cells} cells"))?;
            let refusals = claims.iter().map(|claim| table.refusal(claim.cell.into()));
            let (refused, place) = refusals.zip(1..).find(|&(refusal, _)| refusal != 0).unwrap_or((0, 0));
            let paper = [refused as i64, i64::from(refused != 0), place];
            same(&numbers[..3], &paper[..], || format!("{}, {}, {}, of {cells} cells", claims[0], claims[1], claims[2]))?;
            n += 2;
        }
    }
    Ok(n)
}

fn look_ups(rng: &mut Rng) -> Outcome {
    let mut n = 0;
    for cells in SIZES {
        let table = Table::new(rng, cells);
        for _ in 0..1_200 {
            let any = table.any_cell(rng) as u32;
            let cell = if rng.one_in(8) { any + (1 << rng.range(10, 31)) } else { any };
            let (duration, t) = (rng.range(2, 480) as u32, rng.below(2_000_000));
            let refusal = table.refusal(cell);
            let answer = compare_valuation_rate(&table.rates, cell, t, duration)?;
            same(answer.refusal(), refusal, || format!("valuation rate of cell {cell} of {cells}"))?;
            let answer = compare_reserve_factor(&table.rates, cell, duration, &[t; 5], rng.below(30) as u32, 0.995)?;
            same(answer, refusal, || format!("reserve factor of cell {cell} of {cells}"))?;
            n += 2;
        }
    }
    Ok(n)
}

/// Written into a block and read back, and its bytes as document 02 places them.
fn every_number(rng: &mut Rng) -> Outcome {
    let mut block_number = 1;
    for cell in 0..=u16::MAX {
        let claim = Claim { cell, ..sound_claim(rng) };
        let record = claim_record(&claim);
        same([record[22], record[23]], [cell as u8, (cell >> 8) as u8], || claim.to_string())?;
        let (_, block) = compare_write_block(block_number, &record, BLOCK_LENGTH)?;
        let (count, records) = compare_read_block(&block, block_number, RECORDS_LENGTH)?;
        same((count, &records[..CLAIM_LENGTH]), (1, &record[..]), || claim.to_string())?;
        block_number = block_number % 65_535 + 1;
    }
    Ok(2 * 65_536)
}
