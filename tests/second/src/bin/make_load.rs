//! Writes a claim file of sound claims and a rates file of 16 cells: make_load CLAIMS RATES [N [SEED [CELL]]]. With CELL all claims are in it.

use second::block::MOST_IN_BLOCK;
use second::generate::claim_file;
use second::load::{claims, rates, NINE_YEARS};
use second::report::encode_rates;
use std::env;
use std::fs;
use std::process::exit;

const CELLS: usize = 16;
const MOST: u64 = 65_535 * MOST_IN_BLOCK as u64;

fn main() {
    let arguments: Vec<String> = env::args().skip(1).collect();
    let number = |i: usize, default: u64| arguments.get(i).map_or(Some(default), |text| text.parse().ok());
    let (n, seed, cell) = match (number(2, 500_000), number(3, 1), number(4, CELLS as u64)) {
        (Some(n), Some(seed), Some(cell)) if (2..=5).contains(&arguments.len()) && n <= MOST => (n, seed, cell),
        _ => {
            eprintln!("usage: make_load CLAIMS RATES [N, at most {MOST} [SEED [CELL]]]");
            exit(2);
        }
    };
    let mut load = claims(seed, n as usize, CELLS);
    if cell < CELLS as u64 {
        load.iter_mut().for_each(|claim| claim.cell = cell as u16);
    }
    write(&arguments[0], &claim_file(NINE_YEARS, &load, None));
    write(&arguments[1], &encode_rates(&rates(seed, CELLS)));
}

fn write(path: &str, bytes: &[u8]) {
    if let Err(error) = fs::write(path, bytes) {
        eprintln!("{path}: {error}");
        exit(1);
    }
}
