//! The program: its rates file and what it prints.

use crate::rates::CELL_LENGTH;
use crate::run::RUN_LENGTH;
use crate::study::{GROUP_LENGTH, SUMS_AT};
use crate::valuation::Factor;
use std::fmt::Write;

/// The program takes at most 16 cells.
const MOST_PROGRAM_CELLS: usize = 16;
/// In bytes.
pub const LONGEST_RATES_FILE: usize = MOST_PROGRAM_CELLS * CELL_LENGTH * 4;

/// The rates of `rates.bin`: four bytes each, low byte first; longer than 16 cells or with a part number left over, an empty table.
pub fn decode_rates(bytes: &[u8]) -> Vec<u32> {
    if bytes.len() > LONGEST_RATES_FILE || !bytes.len().is_multiple_of(4) {
        return Vec::new();
    }
    bytes.chunks_exact(4).map(|b| u32::from_le_bytes([b[0], b[1], b[2], b[3]])).collect()
}

/// The bytes of `rates.bin` for these rates.
pub fn encode_rates(rates: &[u32]) -> Vec<u8> {
    rates.iter().flat_map(|rate| rate.to_le_bytes()).collect()
}

/// What the program prints of a run's numbers, by count alone; `factor` gives z, m and T of a group, C and E.
pub fn report(numbers: &[i64; RUN_LENGTH], factor: impl Fn(u8, u32, i64) -> Factor) -> String {
    let [refused, block, place] = [numbers[0], numbers[1], numbers[2]];
    if refused != 0 {
        return format!("refused {refused} block {block} claim {place}\n");
    }
    let mut text = String::from("group exposure rec dea set max lim exprec expdea T\n");
    for (group, row) in (1u8..=5).zip(numbers[3 + SUMS_AT..].chunks_exact(GROUP_LENGTH)) {
        let c = (row[1] + row[2]) as u32;
        let e = row[6] + row[7];
        write!(text, "{group}").unwrap();
        for number in row {
            write!(text, " {number}").unwrap();
        }
        writeln!(text, " {}", factor(group, c, e).t).unwrap();
    }
    text
}
