//! Valuation: z, m and T, the valuation rate and the reserve factor.

use crate::inputs::{any_length, flat_rates, missing_cell};
use crate::one_input::{compare_factor, compare_reserve_factor, compare_valuation_rate, first_factor, same, Answer, CELL};
use crate::{test, Outcome, Test};
use second::generate::{damage_rates, sound_rates};
use second::rates::MOST_CELLS;
use second::rng::Rng;

pub const TESTS: &[Test] = &[
    test("z, m, T: random", 18, factor_random),
    test("z, m, T: at the bounds of z", 19, factor_z_bounds),
    test("z, m, T: every C", 20, factor_every_c),
    test("z, m, T: about the limit on reserves, which is no ceiling", 21, factor_t_limit),
    test("z, m, T: refused", 22, factor_refused),
    test("valuation rate: random", 23, valuation_rate_random),
    test("valuation rate: at whole millionths and at one", 24, valuation_rate_bounds),
    test("valuation rate: refused", 25, valuation_rate_refused),
    test("valuation rate: cells not in the table", 50, valuation_rate_missing_cells),
    test("reserve factor: random", 26, reserve_random),
    test("reserve factor: discounts of all kinds", 27, reserve_discounts),
    test("reserve factor: refused", 28, reserve_refused),
    test("reserve factor: cells not in the table", 51, reserve_missing_cells),
];

pub fn terminations(rng: &mut Rng) -> u32 {
    match rng.below(4) {
        0 => rng.pick(&[0, 1, 2, 73, 74, 294, 295, 4_999, 5_000, 499_999, 500_000]),
        1 => rng.below(1_000) as u32,
        _ => rng.below(500_001) as u32,
    }
}

fn factor_random(rng: &mut Rng) -> Outcome {
    let n = 60_000;
    for _ in 0..n {
        let e = any_length(rng) as i64;
        let e = if rng.one_in(10) { e.wrapping_neg() } else { e };
        compare_factor(rng.range(1, 5) as u8, terminations(rng), e)?;
    }
    for group in 1..=5 {
        for e in [i64::MIN, i64::MIN + 1, -1, 0, 1, 2, i64::MAX - 1, i64::MAX] {
            for c in [0, 1, 4_999, 5_000, 499_999, 500_000] {
                compare_factor(group, c, e)?;
            }
        }
    }
    Ok(n + 5 * 8 * 6)
}

const K: [i128; 4] = [3_300, 2_500, 2_100, 1_700];

fn factor_z_bounds(rng: &mut Rng) -> Outcome {
    let mut n = 0;
    for _ in 0..20_000 {
        let group = rng.range(2, 5);
        let q = if rng.one_in(10) { rng.range(999_990, 1_000_001) } else { rng.range(0, 1_000_001) } as i128;
        // The least E with z = q.
        let e = (q * q * 30 * K[group as usize - 2] + 999_999) / 1_000_000;
        for e in [e - 1, e, e + 1] {
            compare_factor(group as u8, terminations(rng), e as i64)?;
            n += 1;
        }
    }
    Ok(n)
}

fn factor_every_c(rng: &mut Rng) -> Outcome {
    let mut n = 0;
    // m changes with every C where there are few.
    for c in (0..=20_000).chain((20_000..=500_000).step_by(67)) {
        for group in 1..=5 {
            let k = [0, 3_300, 2_500, 2_100, 1_700][group as usize - 1];
            compare_factor(group, c, rng.range(0, 60_000_000 * k))?;
            n += 1;
        }
    }
    Ok(n)
}

fn factor_t_limit(rng: &mut Rng) -> Outcome {
    let mut n = 0;
    for _ in 0..15_000 {
        let group = rng.range(2, 5) as u8;
        let c = if rng.one_in(3) { rng.range(4_990, 5_010) } else { rng.range(1, 500_000) } as u32;
        // About the E at which T is 1.3 with full credibility, and one at which it is with any credibility.
        let m = first_factor(group, c, 1).m as i128;
        let full = 30 * c as i128 * (1_000_000 - m) * 10 / 13;
        let any = full * rng.range(1, 1_000) as i128 / rng.range(1, 1_000) as i128;
        for e in [full - 1, full, full + 1, full + rng.range(-3_000, 3_000) as i128, any] {
            compare_factor(group, c, e as i64)?;
            n += 1;
        }
    }
    Ok(n)
}

fn factor_refused(rng: &mut Rng) -> Outcome {
    let mut n = 0;
    for group in 0..=255 {
        for c in [0, 1, 500_000, 500_001, 1 << 31, u32::MAX, rng.bits() as u32] {
            compare_factor(group, c, rng.range(-10, 1_000_000_000_000))?;
            n += 1;
        }
    }
    Ok(n)
}

fn valuation_rate_random(rng: &mut Rng) -> Outcome {
    let mut n = 0;
    for _ in 0..200 {
        let cells = rng.range(1, 3) as usize;
        let rates = sound_rates(rng, cells);
        for _ in 0..100 {
            let t = if rng.one_in(2) { any_length(rng) } else { rng.below(3_000_000) };
            compare_valuation_rate(&rates, rng.below(cells as u64) as u32, t, rng.range(2, 480) as u32)?;
            n += 1;
        }
    }
    Ok(n)
}

fn valuation_rate_bounds(rng: &mut Rng) -> Outcome {
    let mut n = 0;
    for _ in 0..4_000 {
        let any = rng.below(1_000_001) as u32;
        let s = rng.pick(&[0, 1, 2, 3, 15_000, 999_999, 1_000_000, any]);
        let recovery = rng.below(s as u64 + 1) as u32;
        let rates = flat_rates(recovery, s - recovery);
        // T at which the rate reaches some g, and at which it reaches one.
        let at = |g: u64| g.checked_mul(1_000_000).and_then(|product| product.checked_div(s as u64)).unwrap_or(u64::MAX);
        let g = rng.below(1_000_001);
        for t in [at(g), at(1_000_000), u64::MAX, u64::MAX / (s as u64).max(1), 0, 1_000_000, 1 << 63, 1 << 32] {
            for t in [t.saturating_sub(1), t, t.saturating_add(1)] {
                compare_valuation_rate(&rates, 0, t, rng.pick(&[2, 3, 24, 25, 480]))?;
                n += 1;
            }
        }
    }
    Ok(n)
}

/// Sound tables of some sizes, each with cells that it has not. `call` gives the answer.
fn missing_cells<A: Answer>(rng: &mut Rng, call: impl Fn(&mut Rng, &[u32], u32) -> Result<A, String>) -> Outcome {
    let mut n = 0;
    for cells in [1, 3, 16, 64, 65, MOST_CELLS] {
        let rates = sound_rates(rng, cells);
        for _ in 0..5_000 {
            let cell = missing_cell(rng, cells);
            same(call(rng, &rates, cell)?, A::refused(CELL), || format!("cell {cell} of {cells}"))?;
            n += 1;
        }
    }
    Ok(n)
}

fn valuation_rate_missing_cells(rng: &mut Rng) -> Outcome {
    missing_cells(rng, |rng, rates, cell| compare_valuation_rate(rates, cell, any_length(rng), rng.range(0, 482) as u32))
}

fn reserve_missing_cells(rng: &mut Rng) -> Outcome {
    missing_cells(rng, |rng, rates, cell| {
        let (first, months) = (rng.range(0, 482) as u32, rng.range(0, 482) as u32);
        compare_reserve_factor(rates, cell, first, &five_t(rng), months, rng.pick(&[0.5, 1.0, 0.0, f64::NAN]))
    })
}

fn valuation_rate_refused(rng: &mut Rng) -> Outcome {
    let n = 12_000;
    for _ in 0..n {
        let mut rates = sound_rates(rng, 2);
        if rng.one_in(2) {
            damage_rates(rng, &mut rates);
        }
        let any = rng.below(600) as u32;
        let duration = rng.pick(&[0, 1, 2, 480, 481, 482, u32::MAX, any]);
        let cell = if rng.one_in(2) { missing_cell(rng, 2) } else { rng.below(2) as u32 };
        compare_valuation_rate(&rates, cell, any_length(rng), duration)?;
    }
    Ok(n)
}

/// Five T: plausible ones, or any.
pub fn five_t(rng: &mut Rng) -> [u64; 5] {
    let any = rng.one_in(4);
    std::array::from_fn(|_| if any { any_length(rng) } else { rng.range(0, 2_000_000) as u64 })
}

/// A sound discount: near one, anywhere, or very small.
pub fn discount(rng: &mut Rng) -> f64 {
    let fraction = (rng.below(1 << 53) + 1) as f64 / (1u64 << 53) as f64;
    match rng.below(5) {
        0 => fraction,
        1 | 2 => 1.0 - fraction / 100.0,
        3 => f64::from_bits(rng.range(1, 1.0f64.to_bits() as i64) as u64),
        _ => rng.pick(&[1.0, 0.5, 1.0 - f64::EPSILON / 2.0, f64::MIN_POSITIVE, f64::from_bits(1), 0.995_942_5]),
    }
}

fn reserve_random(rng: &mut Rng) -> Outcome {
    let mut n = 0;
    for _ in 0..1_000 {
        let cells = rng.range(1, 3) as usize;
        let rates = sound_rates(rng, cells);
        for _ in 0..60 {
            let first = if rng.one_in(3) { rng.pick(&[2, 3, 4, 24, 25, 60, 61, 120, 121, 479, 480]) } else { rng.range(2, 480) as u32 };
            let months = if rng.one_in(3) { rng.pick(&[0, 1, 2, 479, 480]) } else { rng.range(0, 480) as u32 };
            let (cell, t, v) = (rng.below(cells as u64) as u32, five_t(rng), discount(rng));
            compare_reserve_factor(&rates, cell, first, &t, months, v)?;
            n += 1;
        }
    }
    Ok(n)
}

fn reserve_discounts(rng: &mut Rng) -> Outcome {
    let rates = sound_rates(rng, 1);
    let one = 1.0f64.to_bits();
    let special = [
        0.0,
        -0.0,
        1.0,
        -1.0,
        f64::from_bits(one - 1),
        f64::from_bits(one + 1),
        f64::NAN,
        -f64::NAN,
        f64::from_bits(0x7ff0_0000_0000_0001),
        f64::INFINITY,
        f64::NEG_INFINITY,
        f64::MIN_POSITIVE,
        -f64::MIN_POSITIVE,
        f64::from_bits(1),
        f64::from_bits(1 << 63 | 1),
        f64::from_bits(0x000f_ffff_ffff_ffff),
        f64::MAX,
        f64::MIN,
    ];
    let mut n = 0;
    for v in special {
        for months in [0, 1, 2, 37, 480, 481] {
            compare_reserve_factor(&rates, 0, 2, &[1_000_000; 5], months, v)?;
            n += 1;
        }
    }
    for _ in 0..15_000 {
        // Any bits, or a subnormal.
        let v = if rng.one_in(2) { f64::from_bits(rng.bits()) } else { f64::from_bits(rng.bits() & 0x800f_ffff_ffff_ffff) };
        compare_reserve_factor(&rates, 0, rng.range(2, 480) as u32, &five_t(rng), rng.range(0, 20) as u32, v)?;
        n += 1;
    }
    Ok(n)
}

fn reserve_refused(rng: &mut Rng) -> Outcome {
    let n = 12_000;
    for _ in 0..n {
        let mut rates = sound_rates(rng, 2);
        if rng.one_in(3) {
            damage_rates(rng, &mut rates);
        }
        let cell = if rng.one_in(3) { missing_cell(rng, 2) } else { rng.below(2) as u32 };
        let first = rng.pick(&[0, 1, 2, 2, 2, 480, 480, 481, u32::MAX]);
        let months = rng.pick(&[0, 1, 5, 480, 481, 1 << 31, u32::MAX]);
        let v = rng.pick(&[0.5, 0.5, 1.0, 0.0, 1.5, f64::NAN]);
        compare_reserve_factor(&rates, cell, first, &five_t(rng), months, v)?;
    }
    Ok(n)
}
