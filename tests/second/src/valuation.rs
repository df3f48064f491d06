//! Valuation: z, m, T, the count that reaches a wanted T, the valuation rate, the reserve factor and the limit on reserves.

use crate::claim::Duration;
use crate::rates::{CellRates, RateTable, Rates, FIRST_RATED, LAST_RATED, MILLION};
use crate::study::{duration_group, MOST_CLAIMS};
use crate::Refusal;

/// K of groups 2 to 5.
const K: [u128; 4] = [3_300, 2_500, 2_100, 1_700];
/// Twice A of groups 2 to 5.
const TWICE_A: [u128; 4] = [8, 6, 5, 4];

const ONE: u128 = MILLION as u128;
const LEAST_MARGIN: u128 = 30_000;
const MOST_MARGIN: u128 = 150_000;

/// The limit judged on reserves: T of groups 3 to 5 is replaced by this, but not that of a group 3 with at least 5,000 terminations.
const T_LIMIT: u64 = 1_300_000;
const UNLIMITED_FROM: u64 = 5_000;
pub const MOST_OPEN_CLAIMS: usize = 2_000;
/// The numbers of an open claim: cell, next duration, months left.
pub const OPEN_CLAIM_LENGTH: usize = 3;
/// An open claim's next duration is above this.
const TWO_YEARS: u32 = 24;

/// z, m and T of a group, in millionths.
#[derive(Clone, Copy, Debug, PartialEq, Eq)]
pub struct Factor {
    pub z: u64,
    pub m: u64,
    pub t: u64,
}

/// The smallest number in low..high with the property, which holds from some number on; `high` if none has it.
fn smallest(mut low: u128, mut high: u128, holds: impl Fn(u128) -> bool) -> u128 {
    while low < high {
        let middle = (low + high) / 2;
        if holds(middle) {
            high = middle;
        } else {
            low = middle + 1;
        }
    }
    low
}

/// z, m and T from a group, C (recoveries and deaths) and E (both expected sums together). Check 12.
pub fn factor(group: u8, terminations: u32, expected: i64) -> Result<Factor, Refusal> {
    if !(1..=5).contains(&group) || terminations > MOST_CLAIMS {
        return Err(Refusal::Valuation);
    }
    if group == 1 {
        return Ok(Factor { z: 0, m: 0, t: MILLION as u64 });
    }
    let (k, twice_a) = (K[group as usize - 2], TWICE_A[group as usize - 2]);
    let c = terminations as u128;
    let e = expected.max(0) as u128;

    // The largest q ≤ 1,000,000 with q² × 30 × K ≤ 1,000,000 × E is one less than the smallest without; 0 if E ≤ 0.
    let z = smallest(1, ONE + 1, |q| q * q * 30 * k > ONE * e) - 1;

    // The smallest r with r² × C ≥ 1,060,900,000,000 × A, as far as the margin's limit lets it count.
    let m = if c == 0 {
        MOST_MARGIN
    } else {
        LEAST_MARGIN + smallest(0, MOST_MARGIN - LEAST_MARGIN, |r| 2 * r * r * c >= 1_060_900_000_000 * twice_a)
    };

    let t = match e {
        0 => ONE,
        _ => z * 30 * c * (ONE - m) / e + ONE - z,
    };
    Ok(Factor { z: z as u64, m: m as u64, t: t as u64 })
}

/// The smallest C from 0 to 500,000 whose T is at least the wanted one, E unchanged; T never falls with C. Checks 12 and 19.
pub fn wanted_count(group: u8, expected: i64, wanted: u64) -> Result<u32, Refusal> {
    factor(group, 0, expected)?;
    let reaches = |c: u128| factor(group, c as u32, expected).is_ok_and(|factor| factor.t >= wanted);
    let most = MOST_CLAIMS as u128;
    match smallest(0, most + 1, reaches) {
        c if c <= most => Ok(c as u32),
        _ => Err(Refusal::NoSuchCount),
    }
}

fn check_duration(duration: u32) -> Result<Duration, Refusal> {
    if (FIRST_RATED..=LAST_RATED).contains(&duration) {
        Ok(Duration(duration))
    } else {
        Err(Refusal::Valuation)
    }
}

/// min(1,000,000, floor(T × S / 1,000,000)).
fn rate_of(cell: &CellRates, t: u64, duration: Duration) -> u32 {
    let rate = t as u128 * cell.termination_rate(duration) as u128 / ONE;
    rate.min(ONE) as u32
}

/// The valuation rate of a T, cell and duration, in millionths. Checks 6 to 8 and 12.
pub fn valuation_rate(rates: &RateTable, cell: u32, t: u64, duration: u32) -> Result<u32, Refusal> {
    let cell = rates.cell(cell)?;
    let duration = check_duration(duration)?;
    Ok(rate_of(&cell, t, duration))
}

/// The running values of the reserve factor.
#[derive(Clone, Copy)]
struct Running {
    p: f64,
    d: f64,
    sum: f64,
}

impl Running {
    /// One month with valuation rate g and discount V.
    fn step(self, g: u32, v: f64) -> Running {
        let p = self.p * ((MILLION - g) as f64 / MILLION as f64);
        let d = self.d * v;
        Running { p, d, sum: self.sum + p * d }
    }
}

/// The reserve factor of N `months` from the duration `first` on, with the T of each group. Checks 6 to 8, 12 and 13.
pub fn reserve_factor(rates: &RateTable, cell: u32, first: u32, t: &[u64; 5], months: u32, v: f64) -> Result<f64, Refusal> {
    let cell = rates.cell(cell)?;
    let first = check_duration(first)?;
    if months > 480 {
        return Err(Refusal::Valuation);
    }
    if !(v > 0.0 && v <= 1.0) {
        return Err(Refusal::Discount);
    }
    let mut running = Running { p: 1.0, d: 1.0, sum: 0.0 };
    for n in 0..months {
        let duration = first.later(n).min(Duration(LAST_RATED));
        let g = rate_of(&cell, t[duration_group(duration) - 1], duration);
        running = running.step(g, v);
    }
    Ok(running.sum)
}

/// The T that the limit on reserves leaves, and the total of the reserve factors with the given and with the replaced T.
#[derive(Clone, Copy, Debug, PartialEq)]
pub struct Limited {
    pub t: [u64; 5],
    pub given: f64,
    pub replaced: f64,
}

/// Judges the limit on the reserves of open claims, three numbers each. Check 17 of the list; then of each claim in order checks 6 to 8,
/// 12, 13 and 17.
pub fn reserve_limit(rates: &RateTable, open_claims: &[u32], t: &[u64; 5], group_3_count: u64, v: f64) -> Result<Limited, Refusal> {
    if !open_claims.len().is_multiple_of(OPEN_CLAIM_LENGTH) || open_claims.len() > MOST_OPEN_CLAIMS * OPEN_CLAIM_LENGTH {
        return Err(Refusal::OpenClaims);
    }
    let mut replaced_t = *t;
    let replaced_groups = if group_3_count >= UNLIMITED_FROM { 4..=5 } else { 3..=5 };
    for group in replaced_groups {
        replaced_t[group - 1] = T_LIMIT;
    }
    let (mut given, mut replaced) = (0.0, 0.0);
    for claim in open_claims.chunks_exact(OPEN_CLAIM_LENGTH) {
        let (cell, duration, months) = (claim[0], claim[1], claim[2]);
        given += reserve_factor(rates, cell, duration, t, months, v)?;
        replaced += reserve_factor(rates, cell, duration, &replaced_t, months, v)?;
        if duration <= TWO_YEARS {
            return Err(Refusal::OpenClaims);
        }
    }
    Ok(Limited { t: if given < replaced { replaced_t } else { *t }, given, replaced })
}
