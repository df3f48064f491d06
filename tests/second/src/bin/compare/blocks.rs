//! Blocks: read and written, with every bit damaged, and refused.

use crate::inputs::{any_claims, any_records, spoil_record, STUDY_WINDOW};
use crate::one_input::{compare_read_block, compare_read_window, compare_write_block, compare_write_window, same, Answer, BLOCK};
use crate::{test, Outcome, Test};
use second::block::{seal, write_block, write_window, BLOCK_LENGTH, CHECK_AT, CLAIM_LENGTH, MOST_IN_BLOCK, RECORDS_LENGTH, ZEROS_AT};
use second::generate::{damage_file, wild_date};
use second::rng::Rng;

pub const TESTS: &[Test] = &[
    test("blocks: write, read, write", 29, write_read_write),
    test("blocks: every bit of a block", 30, every_bit),
    test("blocks: damaged", 31, damaged),
    test("blocks: a check not reduced", 32, check_not_reduced),
    test("blocks: writing refused", 33, write_refused),
    test("blocks: every byte of a record that must be zero, every part of a record", 48, wrong_records),
    test("blocks: windows", 34, windows),
];

fn write_read_write(rng: &mut Rng) -> Outcome {
    let n = 60_000;
    for _ in 0..n {
        let number = if rng.one_in(4) { rng.pick(&[1, 255, 256, 65_535]) } else { rng.range(1, 65_535) as u32 };
        let count = if rng.one_in(4) { rng.pick(&[0, 1, MOST_IN_BLOCK]) } else { rng.range(0, MOST_IN_BLOCK as i64) as usize };
        let records = any_records(rng, count);
        let (written, block) = compare_write_block(number, &records, BLOCK_LENGTH)?;
        let length = RECORDS_LENGTH + rng.below(64) as usize;
        let (read, claims) = compare_read_block(&block, number, length)?;
        // What the first reads of its block it writes again.
        let input = || format!("writing, reading and writing block {number} of {count} claims");
        let read_records = &claims[..records.len()];
        same((written, read, read_records), (0, count as u64, &records[..]), input)?;
        let (_, again) = compare_write_block(number, read_records, BLOCK_LENGTH)?;
        same(again, block, input)?;
    }
    Ok(3 * n)
}

fn every_bit(rng: &mut Rng) -> Outcome {
    let mut n = 0;
    for (number, count) in [(0, 0), (1, 0), (1, 1), (258, 2), (65_535, 14), (7, 15)] {
        let mut block = [0; BLOCK_LENGTH];
        if number == 0 {
            write_window(STUDY_WINDOW.0, STUDY_WINDOW.1, &mut block).unwrap();
        } else {
            write_block(number, &any_claims(rng, count), &mut block).unwrap();
        }
        compare_read_block(&block, number, RECORDS_LENGTH)?;
        for at in 0..BLOCK_LENGTH {
            for bit in 0..8 {
                let mut damaged = block;
                damaged[at] ^= 1 << bit;
                compare_read_block(&damaged, number, RECORDS_LENGTH)?;
                seal(&mut damaged);
                compare_read_block(&damaged, number, RECORDS_LENGTH)?;
                n += 2;
            }
        }
    }
    Ok(n)
}

fn damaged(rng: &mut Rng) -> Outcome {
    let (n, mut refused) = (60_000, 0);
    for _ in 0..n {
        let count = rng.range(0, 15) as usize;
        let claims = any_claims(rng, count);
        let number = rng.pick(&[0, 1, 2, 255, 256, 65_535]);
        let mut block = vec![0; BLOCK_LENGTH];
        if number == 0 {
            write_window(wild_date(rng), wild_date(rng), &mut block).unwrap();
        } else {
            write_block(number, &claims, &mut block).unwrap();
        }
        if rng.one_in(2) {
            damage_file(rng, &mut block);
        }
        let due = if rng.one_in(4) { rng.pick(&[0, 1, 2, 255, 256, 65_535, 65_536, 65_537, 131_072, u32::MAX]) } else { number };
        let length = rng.pick(&[0, 479, 480, 480, 480, 480, 481, 512, 600]);
        refused += u64::from(compare_read_block(&block, due, length)?.0 == u64::refused(BLOCK));
    }
    same(n / 4 < refused && refused < n * 3 / 4, true, || format!("{refused} refused of {n}"))?;
    // Blocks of nothing but chance, sealed.
    for _ in 0..2_000 {
        let mut block = [0; BLOCK_LENGTH];
        let most = rng.pick(&[2, 3, 16, 80, 510]);
        block[..most].fill_with(|| rng.bits() as u8);
        seal(&mut block);
        compare_read_block(&block, u16::from_le_bytes([block[0], block[1]]) as u32, RECORDS_LENGTH)?;
    }
    Ok(n + 2_000)
}

/// A check below 15 could stand in two bytes with 65,521 added; it must be the sum modulo 65,521.
fn check_not_reduced(rng: &mut Rng) -> Outcome {
    let mut n = 0;
    for _ in 0..40 {
        // A full block whose sum is far above 65,521; the numbers of its claims vary until the check is low.
        let mut claims = any_claims(rng, MOST_IN_BLOCK);
        let mut block = [0; BLOCK_LENGTH];
        let check = loop {
            claims[rng.below(15) as usize].number = rng.bits() as u32;
            write_block(1, &claims, &mut block).unwrap();
            let check = u16::from_le_bytes([block[CHECK_AT], block[CHECK_AT + 1]]);
            if check < 15 {
                break check;
            }
        };
        compare_read_block(&block, 1, RECORDS_LENGTH)?;
        block[CHECK_AT..].copy_from_slice(&(check + 65_521).to_le_bytes());
        compare_read_block(&block, 1, RECORDS_LENGTH)?;
        n += 2;
    }
    Ok(n)
}

fn write_refused(rng: &mut Rng) -> Outcome {
    let (n, mut refused) = (60_000, 0);
    for _ in 0..n {
        let any = rng.range(1, 65_535) as u32;
        let number = rng.pick(&[0, 1, 65_535, 65_536, 65_537, 1 << 31, u32::MAX, any, any, any]);
        let count = rng.pick(&[0, 1, 2, 8, 14, 15, 15, 16, 17, 40]);
        let mut records = any_records(rng, count);
        match rng.below(8) {
            0 if count > 0 => {
                let at = rng.below(count as u64) as usize * CLAIM_LENGTH;
                spoil_record(rng, &mut records[at..at + CLAIM_LENGTH]);
            }
            1 => records.resize(records.len() + rng.range(1, 31) as usize, rng.pick(&[0, 1, 255])),
            2 => records.truncate(rng.below(records.len() as u64 + 1) as usize),
            _ => {}
        }
        let length = if rng.one_in(4) { rng.pick(&[0, 1, 16, 511, 513, 1_024]) } else { BLOCK_LENGTH };
        refused += u64::from(compare_write_block(number, &records, length)?.0 == BLOCK);
    }
    same(n / 4 < refused && refused < n * 9 / 10, true, || format!("{refused} refused of {n}"))?;
    Ok(n)
}

/// The rest of the input is sound.
fn wrong_records(rng: &mut Rng) -> Outcome {
    let mut n = 0;
    let mut must = |number: u32, records: &[u8], wanted: u8| {
        n += 1;
        let (answer, _) = compare_write_block(number, records, BLOCK_LENGTH)?;
        same(answer, wanted, || format!("writing block {number} of {} bytes of records", records.len()))
    };
    for count in 0..=MOST_IN_BLOCK + 1 {
        let records = any_records(rng, count);
        for (number, carried) in [(0, false), (1, true), (65_535, true), (65_536, false)] {
            must(number, &records, if carried && count <= MOST_IN_BLOCK { 0 } else { BLOCK })?;
        }
        let number = rng.range(1, 65_535) as u32;
        for part in 1..CLAIM_LENGTH {
            must(number, &[&records[..], &vec![0; part]].concat(), BLOCK)?;
            must(number, &[&records[..], &any_records(rng, 1)[..part]].concat(), BLOCK)?;
        }
        for at in 0..records.len() {
            // Any byte of a field, but none of those that must be zero.
            let mut other = records.clone();
            other[at] = rng.range(1, 255) as u8;
            let sound = at % CLAIM_LENGTH < ZEROS_AT && count <= MOST_IN_BLOCK;
            must(number, &other, if sound { 0 } else { BLOCK })?;
        }
    }
    Ok(n)
}

fn windows(rng: &mut Rng) -> Outcome {
    let n = 10_000;
    for _ in 0..n {
        let (first, last) = (wild_date(rng), wild_date(rng));
        let length = if rng.one_in(5) { rng.pick(&[0, 24, 511, 513, 1_024]) } else { BLOCK_LENGTH };
        let block = compare_write_window(first, last, length)?;
        if length == BLOCK_LENGTH {
            let input = || format!("window {first} to {last}");
            let (read, dates) = compare_read_window(&block, 2)?;
            same((read, &dates[..]), (0, &[first.to_number(), last.to_number()][..]), input)?;
            // Block 0 holds no claims.
            same(compare_read_block(&block, 0, RECORDS_LENGTH)?.0, u64::refused(BLOCK), input)?;
        }
    }
    Ok(n)
}
