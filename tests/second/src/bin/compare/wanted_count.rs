//! The smallest count whose T reaches a wanted one: compared, and held to the first implementation's own T at the count and below it.

use crate::inputs::any_length;
use crate::one_input::{compare_wanted_count, first_factor, same, Answer, NO_SUCH_COUNT, VALUATION};
use crate::valuation::terminations;
use crate::{test, Outcome, Test};
use second::rng::Rng;
use second::study::MOST_CLAIMS;

pub const TESTS: &[Test] = &[
    test("wanted count: about every T of some counts", 78, about_every_t),
    test("wanted count: about the highest T", 79, about_the_highest),
    test("wanted count: any wanted T", 80, any_wanted),
    test("wanted count: every group", 81, every_group),
];

/// Of all sizes and signs.
fn expected(rng: &mut Rng) -> i64 {
    let any = any_length(rng) as i64;
    match rng.below(8) {
        0 => rng.pick(&[i64::MIN, i64::MIN + 1, -1, 0, 1, 2, i64::MAX - 1, i64::MAX]),
        1 => any.wrapping_neg(),
        // As many as some studies have, with z from 0 to 1.
        2..=4 => rng.range(1, 120_000_000_000),
        _ => any,
    }
}

/// Compares, and asks the first implementation's T whether the count reaches the wanted one and the count before falls short, or whether
/// no count reaches it. `group` is 1 to 5.
fn compare_count(group: u8, e: i64, wanted: u64) -> Result<u64, String> {
    let answer = compare_wanted_count(group, e, wanted)?;
    let t = |c: u64| first_factor(group, c as u32, e).t;
    let input = || format!("group {group}, E {e}, wanted {wanted}: {answer}");
    if answer.refusal() == 0 {
        same(t(answer) >= wanted, true, input)?;
        same(answer == 0 || t(answer - 1) < wanted, true, input)?;
    } else {
        same((answer, t(MOST_CLAIMS as u64) < wanted), (u64::refused(NO_SUCH_COUNT), true), input)?;
    }
    Ok(answer)
}

fn about_every_t(rng: &mut Rng) -> Outcome {
    let mut n = 0;
    for _ in 0..12_000 {
        let (group, e, c) = (rng.range(1, 5) as u8, expected(rng), terminations(rng));
        let t = first_factor(group, c, e).t;
        for wanted in [t.saturating_sub(1), t, t + 1] {
            compare_count(group, e, wanted)?;
            n += 1;
        }
        // T at the count is reached by no later one.
        let answer = compare_count(group, e, t)?;
        same(answer <= c as u64, true, || format!("group {group}, E {e}, T of {c}: {answer}"))?;
        n += 1;
    }
    Ok(n)
}

fn about_the_highest(rng: &mut Rng) -> Outcome {
    let mut n = 0;
    for _ in 0..12_000 {
        let (group, e) = (rng.range(1, 5) as u8, expected(rng));
        let highest = first_factor(group, MOST_CLAIMS, e).t;
        let lowest = first_factor(group, 0, e).t;
        for (wanted, reached) in [(highest, true), (highest + 1, false), (u64::MAX, false), (0, true), (lowest, true)] {
            let answer = compare_count(group, e, wanted)?;
            same(answer.refusal() == 0, reached, || format!("group {group}, E {e}, wanted {wanted}: {answer}"))?;
            n += 1;
        }
    }
    Ok(n)
}

fn any_wanted(rng: &mut Rng) -> Outcome {
    let (n, mut refused) = (30_000, 0);
    for _ in 0..n {
        let (group, e, any) = (rng.range(1, 5) as u8, expected(rng), any_length(rng));
        let near_one = rng.range(900_000, 2_000_000) as u64;
        let wanted = rng.pick(&[0, 1, 999_999, 1_000_000, 1_000_001, 1_300_000, 1_300_001, u64::MAX, 1 << 32, 1 << 63, any, any, near_one]);
        refused += u64::from(compare_count(group, e, wanted)?.refusal() != 0);
    }
    same(n / 10 < refused && refused < n * 9 / 10, true, || format!("{refused} refused of {n}"))?;
    Ok(n)
}

/// A bad group is refused before an unreachable T.
fn every_group(rng: &mut Rng) -> Outcome {
    let mut n = 0;
    for group in 0..=255 {
        for wanted in [0, 1_000_000, 1_000_001, u64::MAX, any_length(rng)] {
            for e in [0, 1, -1, i64::MIN, i64::MAX, expected(rng), expected(rng)] {
                let answer = compare_wanted_count(group, e, wanted)?;
                let bad = !(1..=5).contains(&group);
                same(answer.refusal() == VALUATION, bad, || format!("group {group}, E {e}, wanted {wanted}: {answer}"))?;
                n += 1;
            }
        }
    }
    Ok(n)
}
