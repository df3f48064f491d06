//! Claim file: the run over a whole file, and over one with corrections.

use crate::block::{read_block, Block, BLOCK_LENGTH};
use crate::claim::Claim;
use crate::months::Window;
use crate::rates::{PreparedTable, RateTable, Rates};
use crate::study::{Study, STUDY_LENGTH};
use crate::Refusal;
use std::collections::HashMap;

/// The numbers of a file run as a list.
pub const RUN_LENGTH: usize = 3 + STUDY_LENGTH;

/// The most claim records of a file with corrections.
pub const MOST_RECORDS: usize = 60_000;

/// What a file run gives: 0 for number, block and place if not refused, and the study (so far).
#[derive(Clone, Copy, Debug, PartialEq, Eq)]
pub struct FileRun {
    pub refused: u8,
    pub block: u32,
    /// The claim's place in its block from 1; 0 for a block fault, a bad length or a bad window.
    pub place: u32,
    pub study: Study,
}

/// Runs a file's blocks 0, 1, 2, .. in order up to the first refusal. A part block at the end comes last and fails by its length.
pub fn run_file(file: &[u8], rates: &[u32]) -> FileRun {
    run_blocks(file.chunks(BLOCK_LENGTH), &RateTable::new(rates))
}

/// As `run_file`, with a prepared table.
pub fn run_prepared_file(file: &[u8], table: &[u32]) -> FileRun {
    run_blocks(file.chunks(BLOCK_LENGTH), &PreparedTable(table))
}

/// Runs blocks as they come, and asks for none after the first refusal.
pub fn run_blocks<B: AsRef<[u8]>>(blocks: impl Iterator<Item = B>, rates: &impl Rates) -> FileRun {
    run(|study| take_blocks(blocks, rates, study, |_, _| {}))
}

/// As `run_file`, and hands each accepted claim and the window to `taken`.
pub fn run_each(file: &[u8], rates: &impl Rates, taken: impl FnMut(Window, &Claim)) -> FileRun {
    run(|study| take_blocks(file.chunks(BLOCK_LENGTH), rates, study, taken))
}

/// Runs a file in which a later record corrects the earlier ones with its claim number: only the last in file order is studied.
pub fn run_corrected_file(file: &[u8], rates: &[u32]) -> FileRun {
    run(|study| take_corrected(file, &RateTable::new(rates), study))
}

/// As `run_corrected_file`, with a prepared table.
pub fn run_prepared_corrected_file(file: &[u8], table: &[u32]) -> FileRun {
    run(|study| take_corrected(file, &PreparedTable(table), study))
}

/// A refusal, its block and its claim's place.
type Stop = (Refusal, u32, u32);

fn run(take: impl FnOnce(&mut Study) -> Result<(), Stop>) -> FileRun {
    let mut study = Study::unopened();
    match take(&mut study) {
        Ok(()) => FileRun { refused: 0, block: 0, place: 0, study },
        Err((refusal, block, place)) => FileRun { refused: refusal.number(), block, place, study },
    }
}

/// Checks every block, then the window, then the number of records (14), and then adds the claims that no later record corrects.
fn take_corrected(file: &[u8], rates: &impl Rates, study: &mut Study) -> Result<(), Stop> {
    let mut window = None;
    let mut records: Vec<(Claim, u32, u32)> = Vec::new();
    for (due, bytes) in (0..).zip(file.chunks(BLOCK_LENGTH)) {
        match read_block(bytes, due).map_err(|refusal| (refusal, due, 0))? {
            Block::Window(first, last) => window = Some((first, last)),
            Block::Claims(block) => records.extend((1..).zip(&block.claims[..block.count]).map(|(place, claim)| (*claim, due, place))),
        }
    }
    let (first, last) = window.ok_or((Refusal::Block, 0, 0))?;
    *study = Study::open(first, last).map_err(|refusal| (refusal, 0, 0))?;
    if records.len() > MOST_RECORDS {
        return Err((Refusal::Records, 0, 0));
    }

    let last_of: HashMap<u32, usize> = records.iter().enumerate().map(|(i, (claim, ..))| (claim.number, i)).collect();
    for (i, (claim, block, place)) in records.iter().enumerate() {
        if last_of[&claim.number] == i {
            study.add(claim, rates).map_err(|refusal| (refusal, *block, *place))?;
        }
    }
    Ok(())
}

fn take_blocks<B: AsRef<[u8]>>(
    blocks: impl Iterator<Item = B>,
    rates: &impl Rates,
    study: &mut Study,
    mut taken: impl FnMut(Window, &Claim),
) -> Result<(), Stop> {
    let mut due = 0;
    for bytes in blocks {
        match read_block(bytes.as_ref(), due).map_err(|refusal| (refusal, due, 0))? {
            Block::Window(first, last) => {
                *study = Study::open(first, last).map_err(|refusal| (refusal, due, 0))?;
            }
            Block::Claims(block) => {
                for (place, claim) in (1u32..).zip(&block.claims[..block.count]) {
                    study.add(claim, rates).map_err(|refusal| (refusal, due, place))?;
                    taken(study.window, claim);
                }
            }
        }
        due += 1;
    }
    // A file without block 0.
    if due == 0 {
        return Err((Refusal::Block, 0, 0));
    }
    Ok(())
}

impl FileRun {
    /// Number, block, place, then the study's numbers.
    pub fn numbers(&self) -> [i64; RUN_LENGTH] {
        let mut numbers = [0; RUN_LENGTH];
        numbers[..3].copy_from_slice(&[self.refused as i64, self.block as i64, self.place as i64]);
        numbers[3..].copy_from_slice(&self.study.numbers());
        numbers
    }
}
