//! Writes the inputs on which the programs are run side by side: make_cases DIR. DIR/NAME.claims is a claim file, DIR/NAME/rates.bin a
//! rates file in a folder of its own, where a program can be started. DIR/random_N.claims goes with DIR/random_N/rates.bin.

use second::block::{seal, write_block, BLOCK_LENGTH};
use second::calendar::Date;
use second::claim::{Claim, CHANGE_OF_DEFINITION, CLOSED, OPEN, RECOVERY, SETTLEMENT};
use second::examples::STUDY_WINDOW as WINDOW;
use second::generate::{any_cell, claim_file, damage_claim, damage_file, damage_rates, sound_claim, sound_rates, sound_window};
use second::rates::{CELL_LENGTH, DURATIONS};
use second::report::encode_rates;
use second::rng::Rng;
use std::env;
use std::fs;
use std::io::Result;
use std::path::Path;
use std::process::exit;

/// Document 01's example of the program.
const EXAMPLE: Claim = Claim {
    number: 1,
    disability: Date::new(2009, 3, 13),
    bcd: Date::new(2009, 6, 11),
    termination: Date::new(2012, 4, 29),
    maximum: Date::MISSING,
    status: CLOSED,
    code: RECOVERY,
    cell: 0,
    benefit: 0,
};

/// Settled on the day that its window begins: −1 thirtieths.
const NEGATIVE: Claim = Claim {
    disability: Date::new(2010, 11, 12),
    bcd: Date::new(2011, 2, 10),
    termination: Date::new(2011, 2, 16),
    code: SETTLEMENT,
    ..EXAMPLE
};

fn main() {
    let arguments: Vec<String> = env::args().skip(1).collect();
    let [dir] = arguments.as_slice() else {
        eprintln!("usage: make_cases DIR");
        exit(2);
    };
    if let Err(error) = make(Path::new(dir)) {
        eprintln!("{dir}: {error}");
        exit(1);
    }
}

fn make(dir: &Path) -> Result<()> {
    for (name, claims) in claim_files() {
        fs::write(dir.join(format!("{name}.claims")), claims)?;
    }
    for (name, rates) in rates_files() {
        write_rates(dir, name, &rates)?;
    }
    let mut rng = Rng::new(301);
    for i in 0..RANDOM {
        let (claims, rates) = random(&mut rng, i);
        fs::write(dir.join(format!("random_{i}.claims")), claims)?;
        write_rates(dir, &format!("random_{i}"), &rates)?;
    }
    Ok(())
}

fn write_rates(dir: &Path, name: &str, rates: &[u8]) -> Result<()> {
    fs::create_dir(dir.join(name))?;
    fs::write(dir.join(name).join("rates.bin"), rates)
}

fn claim_files() -> Vec<(&'static str, Vec<u8>)> {
    let of = |claims: &[Claim]| claim_file(WINDOW, claims, None);
    let twenty = of(&[EXAMPLE; 20]);
    let mut refused_claim = [EXAMPLE; 20];
    refused_claim[17].disability = Date::new(2009, 5, 28);
    let mut refused_block = twenty.clone();
    refused_block[2 * BLOCK_LENGTH + 100] ^= 1;
    // Claims of all cells and any length, in the window as it is printed.
    let mut rng = Rng::new(302);
    let mixed: Vec<Claim> = (0..3_000).map(|i| Claim { cell: i % 16, ..sound_claim(&mut rng) }).collect();
    // Open from the first day of the calendar to the last, so that every sum is large.
    let longest = Claim {
        disability: Date::new(1950, 1, 1),
        bcd: Date::new(1950, 2, 1),
        status: OPEN,
        code: 0,
        termination: Date::MISSING,
        ..EXAMPLE
    };
    let calendar = (Date::new(1950, 1, 1), Date::new(2099, 12, 31));
    vec![
        ("example", of(&[EXAMPLE])),
        ("change_of_definition", of(&[Claim { code: CHANGE_OF_DEFINITION, ..EXAMPLE }])),
        ("benefit_200", of(&[Claim { benefit: 200, ..EXAMPLE }])),
        ("benefit_201", of(&[Claim { benefit: 201, ..EXAMPLE }])),
        ("cell_256", of(&[Claim { cell: 256, ..EXAMPLE }])),
        ("twenty", twenty.clone()),
        ("recovered", of(&[EXAMPLE; 2_000])),
        ("refused_claim", of(&refused_claim)),
        ("refused_block", refused_block),
        ("bad_window", claim_file((WINDOW.1, WINDOW.0), &[EXAMPLE], None)),
        ("part_block", twenty[..twenty.len() - 1].to_vec()),
        ("byte_more", [&twenty[..], &[0]].concat()),
        ("no_block_0", twenty[BLOCK_LENGTH..].to_vec()),
        ("no_claims", of(&[])),
        ("negative", claim_file((Date::new(2011, 2, 16), WINDOW.1), &[NEGATIVE; 17], None)),
        ("mixed", of(&mixed)),
        ("longest", claim_file(calendar, &vec![longest; 20_000], None)),
        ("blocks_65_536", empty_blocks(65_536)),
        ("blocks_70_000", empty_blocks(70_000)),
    ]
}

/// As many blocks without claims, block 0 among them; past 65,535 each carries the low bytes of the number due.
fn empty_blocks(count: u32) -> Vec<u8> {
    let mut file = claim_file(WINDOW, &[], None);
    let mut block = [0; BLOCK_LENGTH];
    write_block(1, &[], &mut block).unwrap();
    for number in 1..count {
        block[..2].copy_from_slice(&(number as u16).to_le_bytes());
        seal(&mut block);
        file.extend_from_slice(&block);
    }
    file
}

fn rates_files() -> Vec<(&'static str, Vec<u8>)> {
    let cell = |recovery: u32, death: u32| [[recovery; DURATIONS], [death; DURATIONS]].concat();
    let flat = encode_rates(&cell(10_000, 5_000));
    let cells_16 = flat.repeat(16);
    vec![
        ("flat", flat.clone()),
        ("highest", encode_rates(&cell(500_000, 500_000))),
        ("too_high", encode_rates(&cell(500_000, 500_001))),
        ("cells_16", cells_16.clone()),
        ("cells_17", flat.repeat(17)),
        ("cells_16_number_more", [&cells_16[..], &[0; 4]].concat()),
        ("cells_16_byte_more", [&cells_16[..], &[0]].concat()),
        ("byte_more", [&flat[..], &[0]].concat()),
        ("byte_less", flat[..flat.len() - 1].to_vec()),
        ("number_less", flat[..4 * (CELL_LENGTH - 1)].to_vec()),
        ("empty", Vec::new()),
    ]
}

const RANDOM: u64 = 60;

/// A claim file and rates: every third sound, the others with damaged claims, or with the file or the rates damaged too.
fn random(rng: &mut Rng, i: u64) -> (Vec<u8>, Vec<u8>) {
    let cells = rng.range(1, 16) as usize;
    let mut rates = sound_rates(rng, cells);
    let count = rng.range(1, 200) as usize;
    let mut claims: Vec<Claim> = (0..count).map(|_| Claim { cell: any_cell(rng, cells), ..sound_claim(rng) }).collect();
    let window = sound_window(rng, &claims[0]);
    if i % 3 == 1 {
        damage_claim(rng, &mut claims[count / 2]);
    }
    let mut file = claim_file(window, &claims, Some(rng));
    if i % 3 == 2 {
        if rng.one_in(4) {
            damage_rates(rng, &mut rates);
        } else {
            damage_file(rng, &mut file);
        }
    }
    (file, encode_rates(&rates))
}
