//! Random inputs: sound and damaged claims, windows, rate tables and files.

use crate::block::{seal, write_block, write_window, BLOCK_LENGTH, MOST_IN_BLOCK};
use crate::calendar::{month_length, Date, Day};
use crate::claim::{Claim, CHANGE_OF_DEFINITION, CLOSED, MOST_BENEFIT, RECOVERY};
use crate::examples::STUDY_WINDOW;
use crate::rates::{CELL_LENGTH, DURATIONS};
use crate::rng::Rng;

/// A day of the calendar between two day numbers, cut to the calendar.
fn day_between(rng: &mut Rng, low: i32, high: i32) -> Day {
    let (low, high) = (low.clamp(0, Day::LAST.0), high.clamp(0, Day::LAST.0));
    Day(rng.range(low as i64, high as i64) as i32)
}

fn any_day(rng: &mut Rng) -> Day {
    day_between(rng, 0, Day::LAST.0)
}

/// A cell of a table of `cells` cells.
pub fn any_cell(rng: &mut Rng, cells: usize) -> u16 {
    rng.below(cells as u64) as u16
}

/// The code of a closed claim.
pub fn any_code(rng: &mut Rng) -> u8 {
    rng.range(RECOVERY as i64, CHANGE_OF_DEFINITION as i64) as u8
}

/// A benefit that passes check 16, often none, the least or the highest.
pub fn any_benefit(rng: &mut Rng) -> u8 {
    let any = rng.range(0, MOST_BENEFIT as i64) as u8;
    rng.pick(&[0, 1, MOST_BENEFIT, any, any, any])
}

/// A claim that passes checks 2 to 5 and 16: anywhere in the calendar, in the study's years, near the end of a month, or around February.
pub fn sound_claim(rng: &mut Rng) -> Claim {
    let year = rng.range(1951, 2099) as u16;
    let bcd = match rng.below(4) {
        0 => day_between(rng, 15, Day::LAST.0),
        1 => day_between(rng, 16_436, 24_836),
        2 => {
            let month = rng.range(1, 12) as u8;
            let last = month_length(year, month);
            Date::new(year, month, rng.range(26, last as i64) as u8).day_number().unwrap()
        }
        _ => Date::new(year, 1, 24).day_number().unwrap() + rng.range(0, 45) as i32,
    };
    let elimination_period = match rng.below(4) {
        0 => rng.pick(&[15, 29, 30, 44, 45, 74, 75, 90, 180, 365]),
        1 => rng.range(15, 120) as i32,
        2 => rng.range(15, 4_000) as i32,
        _ => rng.range(15, bcd.0 as i64) as i32,
    };
    let disability = Day((bcd.0 - elimination_period.min(bcd.0)).max(0));
    let mut claim = Claim {
        number: rng.bits() as u32,
        disability: disability.date(),
        bcd: bcd.date(),
        cell: any_cell(rng, 4),
        benefit: any_benefit(rng),
        ..Claim::default()
    };
    let mut near = bcd;
    if !rng.one_in(3) {
        let longest = rng.pick(&[3, 62, 800, 6_000, Day::LAST.0]);
        near = day_between(rng, bcd.0, bcd.0 + longest);
        claim.termination = near.date();
        claim.status = CLOSED;
        claim.code = any_code(rng);
    }
    claim.maximum = match rng.below(4) {
        0 => Date::MISSING,
        1 => any_day(rng).date(),
        2 => day_between(rng, near.0 - 50, near.0 + 50).date(),
        _ => Day((near.0 + rng.pick(&[-46, -45, -44, 44, 45, 46])).clamp(0, Day::LAST.0)).date(),
    };
    claim
}

/// A window that passes check 1: the study's, the whole calendar, or near the claim's dates.
pub fn sound_window(rng: &mut Rng, claim: &Claim) -> (Date, Date) {
    let bcd = claim.bcd.day_number().unwrap_or(Day(20_000)).0;
    let end = claim.termination.day_number().map_or(bcd + 500, |day| day.0);
    let near = |rng: &mut Rng, days: i32| {
        let around = if rng.one_in(2) { bcd } else { end };
        day_between(rng, around - days, around + days)
    };
    let (one, other) = match rng.below(8) {
        0 => return STUDY_WINDOW,
        1 => (Day::FIRST, Day::LAST),
        2 => (any_day(rng), any_day(rng)),
        3 => {
            let day = near(rng, 100);
            (day, day)
        }
        4 => (near(rng, 2), near(rng, 2)),
        5 => (near(rng, 40), near(rng, 40)),
        _ => (near(rng, 2_000), near(rng, 2_000)),
    };
    (one.min(other).date(), one.max(other).date())
}

/// Any four bytes, or nearly a date.
pub fn wild_date(rng: &mut Rng) -> Date {
    let mut date = any_day(rng).date();
    match rng.below(8) {
        0 => return Date::from_number(rng.bits() as u32),
        1 => return Date::MISSING,
        2 => date.year = rng.pick(&[0, 1949, 2100, 1900, 2000, u16::MAX]),
        3 => date.month = rng.pick(&[0, 13, 2, 255]),
        4 => date.day = rng.pick(&[0, 29, 30, 31, 32, 255]),
        5 => (date.month, date.day) = (2, rng.pick(&[28, 29, 30])),
        6 => (date.month, date.day) = (rng.pick(&[4, 6, 9, 11]), rng.pick(&[30, 31])),
        _ => {}
    }
    date
}

/// Damages one to three fields, which may leave the claim sound.
pub fn damage_claim(rng: &mut Rng, claim: &mut Claim) {
    for _ in 0..rng.range(1, 3) {
        match rng.below(10) {
            0 => claim.disability = wild_date(rng),
            1 => claim.bcd = wild_date(rng),
            2 => claim.termination = wild_date(rng),
            3 => claim.maximum = wild_date(rng),
            4 => claim.status = rng.pick(&[0, 1, 2, 3, 128, 255]),
            5 => claim.code = rng.pick(&[0, 1, 2, 3, 4, 5, 6, 7, 255]),
            6 => {
                // An elimination period near the least, or negative.
                let bcd = claim.bcd.day_number().unwrap_or(Day(20_000)).0;
                claim.disability = day_between(rng, bcd - 16, bcd + 2).date();
            }
            7 => {
                let bcd = claim.bcd.day_number().unwrap_or(Day(20_000)).0;
                claim.termination = day_between(rng, bcd - 2, bcd + 1).date();
            }
            8 => claim.benefit = rng.pick(&[0, 1, 199, 200, 201, 201, 255]),
            _ => claim.cell = if rng.one_in(2) { rng.below(256) as u16 } else { rng.bits() as u16 },
        }
    }
}

/// A table of `cells` cells that pass check 8: small rates, any rates, or rates that together make one.
pub fn sound_rates(rng: &mut Rng, cells: usize) -> Vec<u32> {
    let mut rates = vec![0; cells * CELL_LENGTH];
    for cell in rates.chunks_exact_mut(CELL_LENGTH) {
        let (recovery, death) = cell.split_at_mut(DURATIONS);
        let most = rng.pick(&[0, 20_000, 500_000, 1_000_000]);
        let whole = rng.one_in(8);
        for (recovery, death) in recovery.iter_mut().zip(death) {
            *recovery = rng.below(most + 1) as u32;
            let left = 1_000_000 - *recovery;
            *death = if whole { left } else { rng.below(most.min(left as u64) + 1) as u32 };
        }
    }
    rates
}

/// Damages a table: its length, or the rates of some durations.
pub fn damage_rates(rng: &mut Rng, rates: &mut Vec<u32>) {
    if rng.one_in(2) {
        let length = match rng.below(6) {
            0 => 0,
            1 => rates.len() - 1,
            2 => rates.len() + 1,
            3 => rates.len() + CELL_LENGTH - 1,
            4 => rates.len() + DURATIONS,
            _ => rng.below(2_000) as usize,
        };
        rates.resize(length, 0);
        return;
    }
    for _ in 0..rng.range(1, 3) {
        let cell = rng.below((rates.len() / CELL_LENGTH) as u64) as usize * CELL_LENGTH;
        let i = cell + if rng.one_in(3) { rng.pick(&[0, DURATIONS - 1]) } else { rng.below(DURATIONS as u64) as usize };
        let (recovery, death) = match rng.below(5) {
            // Just over one.
            0 => (rng.below(1_000_001) as u32, 1),
            1 => (1_000_001, 0),
            2 => (0, 1_000_001),
            // A sum that 32 bits would not hold.
            3 => (u32::MAX, rng.range(1, 1_000_001) as u32),
            _ => (rng.bits() as u32, rng.bits() as u32),
        };
        rates[i] = recovery;
        rates[i + DURATIONS] = if recovery <= 1_000_000 && death == 1 { 1_000_001 - recovery } else { death };
    }
}

/// The claim file of a window and claims; blocks are filled up, or at random.
pub fn claim_file(window: (Date, Date), claims: &[Claim], mut rng: Option<&mut Rng>) -> Vec<u8> {
    let mut file = vec![0; BLOCK_LENGTH];
    write_window(window.0, window.1, &mut file).unwrap();
    let mut left = claims;
    let mut number = 1;
    while !left.is_empty() {
        let most = rng.as_mut().map_or(MOST_IN_BLOCK, |rng| rng.range(0, MOST_IN_BLOCK as i64) as usize);
        let (taken, rest) = left.split_at(most.min(left.len()));
        let mut block = [0; BLOCK_LENGTH];
        write_block(number, taken, &mut block).unwrap();
        file.extend_from_slice(&block);
        left = rest;
        number += 1;
    }
    file
}

/// The number of a file's whole blocks.
fn blocks(file: &[u8]) -> u64 {
    (file.len() / BLOCK_LENGTH) as u64
}

fn block_of(file: &mut [u8], number: u64) -> &mut [u8] {
    &mut file[number as usize * BLOCK_LENGTH..][..BLOCK_LENGTH]
}

/// Damages a file in bits, bytes, counts, numbers, order, length or window, often with checks set right.
pub fn damage_file(rng: &mut Rng, file: &mut Vec<u8>) {
    let number = rng.below(blocks(file));
    match rng.below(12) {
        0 => {
            // Bits anywhere.
            for _ in 0..rng.range(1, 3) {
                let at = rng.below(file.len() as u64) as usize;
                file[at] ^= 1 << rng.below(8);
            }
        }
        1 | 2 => {
            // A bit, with the check set right.
            let block = block_of(file, number);
            block[rng.below(510) as usize] ^= 1 << rng.below(8);
            seal(block);
        }
        3 => {
            let block = block_of(file, number);
            block[2] = rng.pick(&[0, 1, 14, 15, 16, 17, 255]);
            seal(block);
        }
        4 => {
            let block = block_of(file, number);
            let wrong = rng.pick(&[0, 1, number as u16 + 1, (number as u16).wrapping_sub(1), number as u16 ^ 256, u16::MAX]);
            block[..2].copy_from_slice(&wrong.to_le_bytes());
            seal(block);
        }
        5 => {
            // A byte that should be zero, at the end of the heading, of a claim or of the claims.
            let block = block_of(file, number);
            let at = rng.pick(&[3, 15, 24, 41, 47, 16 + 32 * 14 + 25, 495, 496, 509]);
            block[at] = rng.range(1, 255) as u8;
            seal(block);
        }
        6 => file.truncate(rng.below(file.len() as u64) as usize),
        7 => {
            let more = rng.pick(&[1, 16, 510, 511, 512]);
            file.resize(file.len() + more, 0);
        }
        8 => {
            // Two blocks change places.
            let other = rng.below(blocks(file));
            for i in 0..BLOCK_LENGTH {
                file.swap(number as usize * BLOCK_LENGTH + i, other as usize * BLOCK_LENGTH + i);
            }
        }
        9 => {
            // A block is missing.
            let at = number as usize * BLOCK_LENGTH;
            file.drain(at..at + BLOCK_LENGTH);
        }
        10 => {
            let block = block_of(file, 0);
            write_window(wild_date(rng), wild_date(rng), block).unwrap();
        }
        _ => {
            // The check alone.
            let block = block_of(file, number);
            block[510 + rng.below(2) as usize] ^= 1 << rng.below(8);
        }
    }
}
