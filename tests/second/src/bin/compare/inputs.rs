//! Inputs that the tests of several subjects use: the papers' examples, claims, rates and files at random.

use second::block::{claim_record, CLAIM_LENGTH, ZEROS_AT};
use second::calendar::Date;
use second::claim::Claim;
pub use second::examples::{closed_claim, date, day, flat_rates, open_claim, with_elimination, STUDY_WINDOW};
use second::generate::{any_cell, claim_file, damage_claim, sound_claim, sound_rates, sound_window};
use second::rates::MOST_CELLS;
use second::rng::Rng;

pub fn sound_claims(rng: &mut Rng, count: usize, cells: usize) -> Vec<Claim> {
    (0..count).map(|_| Claim { cell: any_cell(rng, cells), ..sound_claim(rng) }).collect()
}

/// A window, claims that are accepted with the rates, and the rates.
pub fn sound_study(rng: &mut Rng, most_claims: i64) -> ((Date, Date), Vec<Claim>, Vec<u32>) {
    let cells = rng.range(1, 4) as usize;
    let rates = sound_rates(rng, cells);
    let count = rng.range(0, most_claims) as usize;
    let claims = sound_claims(rng, count, cells);
    let about = claims.first().copied().unwrap_or_default();
    (sound_window(rng, &about), claims, rates)
}

/// The file of some claims: blocks filled up, or at random.
pub fn file_of(rng: &mut Rng, window: (Date, Date), claims: &[Claim]) -> Vec<u8> {
    let filled = rng.one_in(2);
    claim_file(window, claims, if filled { None } else { Some(rng) })
}

/// Claims with any bytes in their fields, sound ones among them.
pub fn any_claims(rng: &mut Rng, count: usize) -> Vec<Claim> {
    let mut claims = Vec::new();
    for _ in 0..count {
        let mut claim = sound_claim(rng);
        if rng.one_in(2) {
            damage_claim(rng, &mut claim);
        }
        if rng.one_in(4) {
            claim.disability = Date::from_number(rng.bits() as u32);
            claim.code = rng.bits() as u8;
            claim.cell = rng.bits() as u16;
            claim.benefit = rng.bits() as u8;
        }
        claims.push(claim);
    }
    claims
}

/// The records of `any_claims`, one after the other.
pub fn any_records(rng: &mut Rng, count: usize) -> Vec<u8> {
    any_claims(rng, count).iter().flat_map(claim_record).collect()
}

/// Makes a byte of a record that must be zero another.
pub fn spoil_record(rng: &mut Rng, record: &mut [u8]) {
    record[rng.range(ZEROS_AT as i64, CLAIM_LENGTH as i64 - 1) as usize] = rng.range(1, 255) as u8;
}

/// A number whose length in bits is random too.
pub fn any_length(rng: &mut Rng) -> u64 {
    let shift = rng.below(64);
    rng.bits() >> shift
}

/// A cell that a table of `cells` cells has not, often with the low byte or the low bytes of one that it has.
pub fn missing_cell(rng: &mut Rng, cells: usize) -> u32 {
    let there = rng.below(cells as u64) as u32;
    // From 1,024 on no table has the cell, whatever its low byte.
    let high = |rng: &mut Rng, most: i64| (rng.range(MOST_CELLS as i64 >> 8, most) as u32) << 8;
    match rng.below(6) {
        0 => rng.pick(&[cells as u32, 64, 255, 256, 1_023, 1_024, 1_025, 65_535, 65_536, 1 << 31, u32::MAX]).max(cells as u32),
        1 => there + rng.pick(&[1 << 10, 1 << 16, 1 << 24, 1 << 31]),
        2 => there % 256 + high(rng, 0xff),
        3 => there + ((rng.range(1, 0xffff) as u32) << 16),
        4 => there % 256 + high(rng, 0xff_ffff),
        _ => rng.range(cells as i64, u32::MAX as i64) as u32,
    }
}
