//! The first implementation's calls, as its C header declares them, and safe wrappers over slices.
//!
//! A date is the claim file's four bytes as one number, a claim its record, the claim file's 32 bytes. A refusal is the number of document
//! 01's table, with 2^32 added where the answer has 64 bits; 255 says that a lent list has not the length or form asked for.

use std::ptr::{null, null_mut};

mod c {
    #[link(name = "c_abi", kind = "static")]
    extern "C" {
        pub fn ltd_open(first: u32, last: u32, study: *mut i64, study_len: usize) -> u8;

        pub fn ltd_add(study: *mut i64, study_len: usize, claim: *const u8, claim_len: usize, rates: *const u32, rates_len: usize) -> u8;

        pub fn ltd_withdraw(
            study: *mut i64,
            study_len: usize,
            claim: *const u8,
            claim_len: usize,
            rates: *const u32,
            rates_len: usize,
        ) -> u8;

        pub fn ltd_join(study: *mut i64, study_len: usize, other: *const i64, other_len: usize) -> u8;

        pub fn ltd_read_window(block: *const u8, block_len: usize, dates: *mut u32, dates_len: usize) -> u8;

        pub fn ltd_listing(first: u32, last: u32, claim: *const u8, claim_len: usize, list: *mut i32, list_len: usize) -> u64;

        pub fn ltd_file_study(file: *const u8, file_len: usize, rates: *const u32, rates_len: usize, out: *mut i64, out_len: usize) -> u8;

        pub fn ltd_prepare(table: *mut u32, table_len: usize) -> u8;

        pub fn ltd_prepared_file_study(
            file: *const u8,
            file_len: usize,
            table: *const u32,
            table_len: usize,
            out: *mut i64,
            out_len: usize,
        ) -> u8;

        pub fn ltd_corrected_study(
            file: *const u8,
            file_len: usize,
            rates: *const u32,
            rates_len: usize,
            out: *mut i64,
            out_len: usize,
        ) -> u8;

        pub fn ltd_prepared_add(
            study: *mut i64,
            study_len: usize,
            claim: *const u8,
            claim_len: usize,
            table: *const u32,
            table_len: usize,
        ) -> u8;

        pub fn ltd_prepared_withdraw(
            study: *mut i64,
            study_len: usize,
            claim: *const u8,
            claim_len: usize,
            table: *const u32,
            table_len: usize,
        ) -> u8;

        pub fn ltd_prepared_corrected_study(
            file: *const u8,
            file_len: usize,
            table: *const u32,
            table_len: usize,
            out: *mut i64,
            out_len: usize,
        ) -> u8;

        pub fn ltd_durations(file: *const u8, file_len: usize, rates: *const u32, rates_len: usize, out: *mut i64, out_len: usize) -> u8;

        pub fn ltd_prepared_durations(
            file: *const u8,
            file_len: usize,
            table: *const u32,
            table_len: usize,
            out: *mut i64,
            out_len: usize,
        ) -> u8;

        pub fn ltd_factor(group: u8, terminations: u32, expected: i64, out: *mut u64, out_len: usize) -> u8;

        pub fn ltd_wanted_count(group: u8, expected: i64, wanted: u64) -> u64;

        pub fn ltd_valuation_rate(rates: *const u32, rates_len: usize, cell: u32, t: u64, duration: u32) -> u64;

        pub fn ltd_reserve_factor(
            rates: *const u32,
            rates_len: usize,
            cell: u32,
            first: u32,
            t: *const u64,
            t_len: usize,
            months: u32,
            v: f64,
            out: *mut f64,
            out_len: usize,
        ) -> u8;

        pub fn ltd_reserve_limit(
            rates: *const u32,
            rates_len: usize,
            open_claims: *const u32,
            open_claims_len: usize,
            t: *const u64,
            t_len: usize,
            group_3_count: u64,
            v: f64,
            t_out: *mut u64,
            t_out_len: usize,
            totals: *mut f64,
            totals_len: usize,
        ) -> u8;

        pub fn ltd_small_company(
            date: u32,
            claims: *const u8,
            claims_len: usize,
            new_t: *const u64,
            new_t_len: usize,
            old_t: *const u64,
            old_t_len: usize,
            out: *mut u64,
            out_len: usize,
        ) -> u8;

        pub fn ltd_load_claim(x: u32, size: u32, number: u32, x_out: *mut u32, x_out_len: usize, claim: *mut u8, claim_len: usize) -> u8;

        pub fn ltd_read_block(block: *const u8, block_len: usize, due: u32, claims: *mut u8, claims_len: usize) -> u64;

        pub fn ltd_write_block(number: u32, claims: *const u8, claims_len: usize, block: *mut u8, block_len: usize) -> u8;

        pub fn ltd_write_window(first: u32, last: u32, block: *mut u8, block_len: usize) -> u8;

        pub fn ltd_version() -> u32;
    }
}

// In every wrapper pointer and length come from one slice, and the header promises that no call keeps a pointer or writes outside the
// lent lists.

/// A list without elements is handed over as null.
fn head<T>(list: &[T]) -> *const T {
    if list.is_empty() {
        null()
    } else {
        list.as_ptr()
    }
}

fn head_mut<T>(list: &mut [T]) -> *mut T {
    if list.is_empty() {
        null_mut()
    } else {
        list.as_mut_ptr()
    }
}

/// The study of a window into `study` (83 numbers).
pub fn open(first: u32, last: u32, study: &mut [i64]) -> u8 {
    unsafe { c::ltd_open(first, last, head_mut(study), study.len()) }
}

/// A claim's record added to `study` (83 numbers).
pub fn add(study: &mut [i64], claim: &[u8], rates: &[u32]) -> u8 {
    unsafe { c::ltd_add(head_mut(study), study.len(), head(claim), claim.len(), head(rates), rates.len()) }
}

/// A claim's record withdrawn from `study` (83 numbers).
pub fn withdraw(study: &mut [i64], claim: &[u8], rates: &[u32]) -> u8 {
    unsafe { c::ltd_withdraw(head_mut(study), study.len(), head(claim), claim.len(), head(rates), rates.len()) }
}

/// The study `other` joined to `study` (83 numbers each).
pub fn join(study: &mut [i64], other: &[i64]) -> u8 {
    unsafe { c::ltd_join(head_mut(study), study.len(), head(other), other.len()) }
}

/// The dates of block 0's window into `dates` (2 numbers).
pub fn read_window(block: &[u8], dates: &mut [u32]) -> u8 {
    unsafe { c::ltd_read_window(head(block), block.len(), head_mut(dates), dates.len()) }
}

/// The month records of a claim's record, six numbers each into `list`: how many, or 2^32 + the number refused.
pub fn listing(first: u32, last: u32, claim: &[u8], list: &mut [i32]) -> u64 {
    unsafe { c::ltd_listing(first, last, head(claim), claim.len(), head_mut(list), list.len()) }
}

/// The study of a whole claim file into `out` (86 numbers).
pub fn file_study(file: &[u8], rates: &[u32], out: &mut [i64]) -> u8 {
    unsafe { c::ltd_file_study(head(file), file.len(), head(rates), rates.len(), head_mut(out), out.len()) }
}

/// Prepares `table` (958 numbers a cell and one more) in place.
pub fn prepare(table: &mut [u32]) -> u8 {
    unsafe { c::ltd_prepare(head_mut(table), table.len()) }
}

/// The study of a whole claim file with a prepared table into `out` (86 numbers).
pub fn prepared_file_study(file: &[u8], table: &[u32], out: &mut [i64]) -> u8 {
    unsafe { c::ltd_prepared_file_study(head(file), file.len(), head(table), table.len(), head_mut(out), out.len()) }
}

/// The study of a whole claim file with corrections into `out` (86 numbers).
pub fn corrected_study(file: &[u8], rates: &[u32], out: &mut [i64]) -> u8 {
    unsafe { c::ltd_corrected_study(head(file), file.len(), head(rates), rates.len(), head_mut(out), out.len()) }
}

/// As `add`, with a prepared table.
pub fn prepared_add(study: &mut [i64], claim: &[u8], table: &[u32]) -> u8 {
    unsafe { c::ltd_prepared_add(head_mut(study), study.len(), head(claim), claim.len(), head(table), table.len()) }
}

/// As `withdraw`, with a prepared table.
pub fn prepared_withdraw(study: &mut [i64], claim: &[u8], table: &[u32]) -> u8 {
    unsafe { c::ltd_prepared_withdraw(head_mut(study), study.len(), head(claim), claim.len(), head(table), table.len()) }
}

/// As `corrected_study`, with a prepared table.
pub fn prepared_corrected_study(file: &[u8], table: &[u32], out: &mut [i64]) -> u8 {
    unsafe { c::ltd_prepared_corrected_study(head(file), file.len(), head(table), table.len(), head_mut(out), out.len()) }
}

/// The sums of each duration of a whole claim file into `out` (4 numbers and 8 for each of its rows).
pub fn durations(file: &[u8], rates: &[u32], out: &mut [i64]) -> u8 {
    unsafe { c::ltd_durations(head(file), file.len(), head(rates), rates.len(), head_mut(out), out.len()) }
}

/// As `durations`, with a prepared table.
pub fn prepared_durations(file: &[u8], table: &[u32], out: &mut [i64]) -> u8 {
    unsafe { c::ltd_prepared_durations(head(file), file.len(), head(table), table.len(), head_mut(out), out.len()) }
}

/// z, m and T into `out` (3 numbers).
pub fn factor(group: u8, terminations: u32, expected: i64, out: &mut [u64]) -> u8 {
    unsafe { c::ltd_factor(group, terminations, expected, head_mut(out), out.len()) }
}

/// The smallest count whose T is at least the wanted one, or 2^32 + the number refused.
pub fn wanted_count(group: u8, expected: i64, wanted: u64) -> u64 {
    unsafe { c::ltd_wanted_count(group, expected, wanted) }
}

/// The valuation rate, or 2^32 + the number refused.
pub fn valuation_rate(rates: &[u32], cell: u32, t: u64, duration: u32) -> u64 {
    unsafe { c::ltd_valuation_rate(head(rates), rates.len(), cell, t, duration) }
}

/// The reserve factor into `out` (1 number), `t` five numbers.
pub fn reserve_factor(rates: &[u32], cell: u32, first: u32, t: &[u64], months: u32, v: f64, out: &mut [f64]) -> u8 {
    unsafe { c::ltd_reserve_factor(head(rates), rates.len(), cell, first, head(t), t.len(), months, v, head_mut(out), out.len()) }
}

/// The T that the limit on reserves leaves of `t` (five numbers) into `t_out` (5 numbers), and both totals into `totals` (2 numbers), for
/// open claims of three numbers each.
pub fn reserve_limit(
    rates: &[u32],
    open_claims: &[u32],
    t: &[u64],
    group_3_count: u64,
    v: f64,
    t_out: &mut [u64],
    totals: &mut [f64],
) -> u8 {
    unsafe {
        c::ltd_reserve_limit(
            head(rates),
            rates.len(),
            head(open_claims),
            open_claims.len(),
            head(t),
            t.len(),
            group_3_count,
            v,
            head_mut(t_out),
            t_out.len(),
            head_mut(totals),
            totals.len(),
        )
    }
}

/// Whether a carrier is exempt, both counts, a group and five T into `out` (9 numbers), from its claims' records, the new T and those in use
/// (five numbers each).
pub fn small_company(date: u32, claims: &[u8], new_t: &[u64], old_t: &[u64], out: &mut [u64]) -> u8 {
    unsafe {
        c::ltd_small_company(date, head(claims), claims.len(), head(new_t), new_t.len(), head(old_t), old_t.len(), head_mut(out), out.len())
    }
}

/// The claim due of a load, its record into `claim` (32 bytes) and the x reached into `x_out` (1 number).
pub fn load_claim(x: u32, size: u32, number: u32, x_out: &mut [u32], claim: &mut [u8]) -> u8 {
    unsafe { c::ltd_load_claim(x, size, number, head_mut(x_out), x_out.len(), head_mut(claim), claim.len()) }
}

/// The records of a block at the number due into `claims` (480 bytes): how many, or 2^32 + the number refused.
pub fn read_block(block: &[u8], due: u32, claims: &mut [u8]) -> u64 {
    unsafe { c::ltd_read_block(head(block), block.len(), due, head_mut(claims), claims.len()) }
}

/// Records, one after the other, as a block.
pub fn write_block(number: u32, claims: &[u8], block: &mut [u8]) -> u8 {
    unsafe { c::ltd_write_block(number, head(claims), claims.len(), head_mut(block), block.len()) }
}

/// A window's dates as block 0.
pub fn write_window(first: u32, last: u32, block: &mut [u8]) -> u8 {
    unsafe { c::ltd_write_window(first, last, head_mut(block), block.len()) }
}

/// The version that is linked: 65,536 × major + 256 × minor + patch.
pub fn version() -> u32 {
    unsafe { c::ltd_version() }
}
