//! The second implementation's program, to run beside the first one's: reads the claim file on standard input and the rates from
//! `rates.bin` in the current directory, and prints the table or the refusal line.

use second::block::BLOCK_LENGTH;
use second::rates::RateTable;
use second::report::{decode_rates, report, LONGEST_RATES_FILE};
use second::run::run_blocks;
use second::valuation::factor;
use std::fs::File;
use std::io::{stdin, stdout, Read, Write};

fn main() {
    let rates = File::open("rates.bin").map_or(Vec::new(), lent_rates);
    let run = run_blocks(Blocks(stdin().lock()), &RateTable::new(&rates));
    let text = report(&run.numbers(), |group, c, e| factor(group, c, e).expect("a study's group and closing counts"));
    // The program has no exit status of its own: what can't be written is lost.
    let _ = stdout().write_all(text.as_bytes());
}

/// Reads one byte more than the longest table has, which tells a longer one; one that can't be read to its end is missing.
fn lent_rates(file: File) -> Vec<u32> {
    let mut bytes = Vec::new();
    match file.take(LONGEST_RATES_FILE as u64 + 1).read_to_end(&mut bytes) {
        Ok(_) => decode_rates(&bytes),
        Err(_) => Vec::new(),
    }
}

/// The blocks of an input, the last of which may be a part block; a read that fails makes one, even of no bytes.
struct Blocks<R>(R);

impl<R: Read> Iterator for Blocks<R> {
    type Item = Vec<u8>;

    fn next(&mut self) -> Option<Vec<u8>> {
        let mut block = Vec::new();
        match self.0.by_ref().take(BLOCK_LENGTH as u64).read_to_end(&mut block) {
            Ok(0) => None,
            Ok(_) | Err(_) => Some(block),
        }
    }
}
