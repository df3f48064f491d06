//! The limit judged on reserves: totals of many open claims, the T that it leaves, and every refusal in list order.

use crate::inputs::{any_length, flat_rates, missing_cell};
use crate::one_input::{compare_reserve_limit, had_often, same, CELL, DISCOUNT, OPEN_CLAIMS, RATE, RATE_TABLE, VALUATION, WRONG_FORM};
use crate::valuation::{discount, five_t};
use crate::{test, Outcome, Test};
use second::ffi;
use second::generate::{damage_rates, sound_rates};
use second::rates::CELL_LENGTH;
use second::rng::Rng;
use second::valuation::{MOST_OPEN_CLAIMS, OPEN_CLAIM_LENGTH};

pub const TESTS: &[Test] = &[
    test("reserve limit: random", 72, random),
    test("reserve limit: equal totals", 73, equal_totals),
    test("reserve limit: the totals are those of the factor call", 74, totals_of_factors),
    test("reserve limit: claims refused in list order", 75, refused),
    test("reserve limit: lengths of the list", 76, lengths),
    test("reserve limit: lists that have not the length asked for", 77, wrong_form),
];

/// T and totals as long as asked for.
const LENGTHS: [usize; 2] = [5, 2];

fn group_3_count(rng: &mut Rng) -> u64 {
    let any = any_length(rng);
    // Past 32 bits the low ones may be below 5,000.
    rng.pick(&[0, 4_999, 5_000, 5_001, 1 << 32, (1 << 32) + 4_999, 1 << 63, u64::MAX, any, any])
}

fn open_claim(rng: &mut Rng, cells: usize, most_months: i64) -> [u32; OPEN_CLAIM_LENGTH] {
    let duration = if rng.one_in(3) { rng.pick(&[25, 26, 60, 61, 120, 121, 479, 480]) } else { rng.range(25, 480) as u32 };
    let months = if rng.one_in(4) { rng.pick(&[0, 1, 2]) } else { rng.range(0, most_months) as u32 };
    [rng.below(cells as u64) as u32, duration, months]
}

fn open_claims(rng: &mut Rng, count: usize, cells: usize, most_months: i64) -> Vec<u32> {
    (0..count).flat_map(|_| open_claim(rng, cells, most_months)).collect()
}

/// T about the limit, so that either total may be less, or any.
fn any_t(rng: &mut Rng) -> [u64; 5] {
    match rng.below(3) {
        0 => five_t(rng),
        1 => std::array::from_fn(|_| rng.range(1_290_000, 1_310_000) as u64),
        _ => std::array::from_fn(|_| rng.pick(&[0, 1_299_999, 1_300_000, 1_300_001, 2_000_000, u64::MAX])),
    }
}

fn random(rng: &mut Rng) -> Outcome {
    let (mut n, mut replaced) = (0, 0);
    for _ in 0..1_000 {
        let cells = rng.range(1, 3) as usize;
        let rates = sound_rates(rng, cells);
        for i in 0..50 {
            let (count, most_months) = if i == 0 { (rng.range(1, 40), 480) } else { (rng.range(0, 6), 60) };
            let claims = open_claims(rng, count as usize, cells, most_months);
            let (t, v, lengths) = (any_t(rng), discount(rng), LENGTHS.map(|length| length + rng.below(3) as usize));
            let (_, t_out, totals) = compare_reserve_limit(&rates, &claims, &t, group_3_count(rng), v, lengths)?;
            let input = || format!("T {t:?}, totals {totals:?}");
            same((t_out[..5] == t) || totals[0] < totals[1], true, input)?;
            replaced += u64::from(t_out[..5] != t);
            n += 1;
        }
    }
    same(n / 10 < replaced && replaced < n * 9 / 10, true, || format!("{replaced} replaced of {n}"))?;
    Ok(n)
}

/// The given set is kept where no claim meets a T that differs, or no T matters.
fn equal_totals(rng: &mut Rng) -> Outcome {
    let n = 20_000;
    let (none, all, sound) = (flat_rates(0, 0), flat_rates(600_000, 400_000), sound_rates(rng, 1));
    for i in 0..n {
        let mut t: [u64; 5] = std::array::from_fn(|_| rng.range(1_300_001, 3_000_000) as u64);
        let mut claims = open_claims(rng, 3, 1, 40);
        let mut count = group_3_count(rng);
        let rates = match i % 4 {
            // Nobody terminates, or all do in the first month, with any T above the limit; no months left.
            0 => &none,
            1 => &all,
            2 => {
                claims.chunks_mut(3).for_each(|claim| claim[2] = 0);
                &sound
            }
            _ => {
                // Claims of groups whose T is at the limit already, or kept.
                t[4] = 1_300_000;
                claims.chunks_mut(3).for_each(|claim| claim[1] = rng.range(121, 480) as u32);
                if rng.one_in(2) {
                    t[3] = 1_300_000;
                    count = rng.range(5_000, 1 << 40) as u64;
                    claims[1] = rng.range(25, 120) as u32;
                }
                &sound
            }
        };
        let (answer, t_out, totals) = compare_reserve_limit(rates, &claims, &t, count, discount(rng), LENGTHS)?;
        same((answer, totals[0].to_bits(), &t_out[..]), (0, totals[1].to_bits(), &t[..]), || format!("claims {claims:?}"))?;
    }
    Ok(n)
}

/// Both totals, added up from the first implementation's own reserve factors.
fn totals_of_factors(rng: &mut Rng) -> Outcome {
    let n = 5_000;
    for _ in 0..n {
        let rates = sound_rates(rng, 1);
        let count = rng.range(0, 12) as usize;
        let claims = open_claims(rng, count, 1, 100);
        let (t, v, group_3_count) = (any_t(rng), discount(rng), group_3_count(rng));
        let limit = |group: usize, t: u64| if group < 3 || (group == 3 && group_3_count >= 5_000) { t } else { 1_300_000 };
        let replaced_t: [u64; 5] = std::array::from_fn(|i| limit(i + 1, t[i]));
        let total = |t: &[u64; 5]| {
            claims.chunks(3).fold(0.0, |sum, claim| {
                let mut factor = [0.0];
                ffi::reserve_factor(&rates, claim[0], claim[1], t, claim[2], v, &mut factor);
                sum + factor[0]
            })
        };
        let (given, replaced) = (total(&t), total(&replaced_t));
        let (_, t_out, totals) = compare_reserve_limit(&rates, &claims, &t, group_3_count, v, LENGTHS)?;
        let input = || format!("claims {claims:?}, T {t:?}, V {v:e}");
        same([totals[0].to_bits(), totals[1].to_bits()], [given.to_bits(), replaced.to_bits()], input)?;
        same(&t_out[..], if given < replaced { &replaced_t } else { &t }, input)?;
    }
    Ok(n)
}

/// A fault of one number or more in some claims, in the table, or in V; the first claim's first one counts.
fn refused(rng: &mut Rng) -> Outcome {
    let n = 60_000;
    let mut answers = [0u64; 256];
    for _ in 0..n {
        let mut rates = sound_rates(rng, 2);
        if rng.one_in(8) {
            damage_rates(rng, &mut rates);
        } else if rng.one_in(3) {
            rates[CELL_LENGTH + rng.below(CELL_LENGTH as u64) as usize] = 1_000_001;
        }
        let count = rng.range(0, 5) as usize;
        let mut claims = open_claims(rng, count, 2, 10);
        for claim in claims.chunks_mut(3) {
            for _ in 0..rng.below(3) {
                let any = rng.bits() as u32;
                match rng.below(5) {
                    0 => claim[0] = missing_cell(rng, 2),
                    1 => claim[1] = rng.pick(&[0, 1, 481, 482, u32::MAX, any]),
                    2 => claim[1] = rng.pick(&[2, 3, 23, 24, 24, 24, 25]),
                    3 => claim[2] = rng.pick(&[480, 481, 482, 1 << 31, u32::MAX, any]),
                    _ => {}
                }
            }
        }
        let v = rng.pick(&[0.5, 0.5, 0.5, 1.0, 1.0, 0.0, -0.5, 1.0 + f64::EPSILON, f64::NAN, f64::INFINITY]);
        let (answer, _, _) = compare_reserve_limit(&rates, &claims, &any_t(rng), group_3_count(rng), v, LENGTHS)?;
        answers[answer as usize] += 1;
    }
    had_often(&answers, &[0, RATE_TABLE, CELL, RATE, VALUATION, DISCOUNT, OPEN_CLAIMS])?;
    Ok(n)
}

/// A wrong length comes before a fault of the claims.
fn lengths(rng: &mut Rng) -> Outcome {
    let mut n = 0;
    let most = MOST_OPEN_CLAIMS * OPEN_CLAIM_LENGTH;
    for i in 0..3 {
        let rates = sound_rates(rng, 1);
        let sound = open_claims(rng, MOST_OPEN_CLAIMS + 2, 1, if i == 0 { 480 } else { 3 });
        let short = (0..=64).chain((65..most - 10).step_by(89));
        for length in short.chain(most - 10..=most + 6) {
            let wanted = if length % 3 == 0 && length <= most { 0 } else { OPEN_CLAIMS };
            let faulty = vec![rng.pick(&[1, 481]); length];
            let (t, v) = (any_t(rng), discount(rng));
            let (answer, _, _) = compare_reserve_limit(&rates, &sound[..length], &t, group_3_count(rng), v, LENGTHS)?;
            same(answer, wanted, || format!("{length} numbers"))?;
            let (answer, _, _) = compare_reserve_limit(&[], &faulty, &t, group_3_count(rng), f64::NAN, LENGTHS)?;
            let wanted = if wanted == 0 && length > 0 { RATE_TABLE } else { wanted };
            same(answer, wanted, || format!("{length} numbers of claims that are refused"))?;
            n += 2;
        }
    }
    Ok(n)
}

/// 255 comes before every numbered check, so also where list, table, claims or V are refused.
fn wrong_form(rng: &mut Rng) -> Outcome {
    let mut n = 0;
    for _ in 0..60 {
        let rates = sound_rates(rng, 1);
        let claims = open_claims(rng, 2, 1, 20);
        let t = [1_000_000; 8];
        for t_length in 0..=7 {
            for lengths in [[5, 2], [0, 2], [4, 2], [5, 0], [5, 1], [4, 1], [0, 0], [6, 3], [9, 9]] {
                let wrong = t_length != 5 || lengths[0] < 5 || lengths[1] < 2;
                let inputs: [(&[u32], &[u32], f64, u8); 5] = [
                    (&rates, &claims, 0.5, 0),
                    (&rates, &claims[1..], 0.5, OPEN_CLAIMS),
                    (&rates[1..], &claims, 0.5, RATE_TABLE),
                    (&rates, &[1, 25, 1], 0.5, CELL),
                    (&rates, &claims, f64::NAN, DISCOUNT),
                ];
                for (rates, claims, v, numbered) in inputs {
                    let (answer, _, _) = compare_reserve_limit(rates, claims, &t[..t_length], group_3_count(rng), v, lengths)?;
                    let wanted = if wrong { WRONG_FORM } else { numbered };
                    same(answer, wanted, || format!("T of {t_length} numbers, lists of {lengths:?}"))?;
                    n += 1;
                }
            }
        }
    }
    Ok(n)
}
