//! Pools in any order and grouping, with fresh studies among them: one study, which is that of all claims.

use crate::inputs::sound_claims;
use crate::join::study_of;
use crate::one_input::{compare_join, compare_open, same, FULL};
use crate::{test, Outcome, Test};
use second::calendar::{Date, Day};
use second::generate::{sound_rates, sound_window};
use second::rng::Rng;
use second::study::{MOST_CLAIMS, STUDY_LENGTH};

pub const TESTS: &[Test] = &[
    test("pools: trees over studies and fresh ones", 107, trees),
    test("pools: regions first or lines of business first", 108, regions_and_lines),
    test("pools: 500,000 claims together, in any grouping", 109, largest),
];

/// How the studies are joined.
#[derive(Clone, Copy, Debug)]
enum Tree {
    /// One after the other to the first, or each to the ones after it.
    FromTheLeft,
    FromTheRight,
    /// Any two neighbours, or any two.
    Neighbours,
    Any,
}

/// Joins studies until one is left, and counts the joins in `n`.
fn pooled(rng: &mut Rng, mut studies: Vec<Vec<i64>>, tree: Tree, n: &mut u64) -> Result<Vec<i64>, String> {
    while studies.len() > 1 {
        let last = studies.len() - 1;
        let (at, other) = match tree {
            Tree::FromTheLeft => (0, 1),
            Tree::FromTheRight => (last - 1, last),
            Tree::Neighbours => {
                let at = rng.below(last as u64) as usize;
                (at, at + 1)
            }
            Tree::Any => {
                let [one, other] = [last, last - 1].map(|most| rng.below(most as u64 + 1) as usize);
                if other < one {
                    (other, one)
                } else {
                    (one, other + 1)
                }
            }
        };
        let taken = studies.remove(other);
        same(compare_join(&mut studies[at], &taken)?, 0, || format!("joining {other} to {at} of {last} more, {tree:?}"))?;
        *n += 1;
    }
    Ok(studies.remove(0))
}

const TREES: [Tree; 4] = [Tree::FromTheLeft, Tree::FromTheRight, Tree::Neighbours, Tree::Any];

fn fresh((first, last): (Date, Date)) -> Result<Vec<i64>, String> {
    Ok(compare_open(first, last, STUDY_LENGTH)?.1)
}

/// Offices whose claims are studied in one window with one table.
struct Offices {
    window: (Date, Date),
    studies: Vec<Vec<i64>>,
    /// The study of all claims.
    whole: Vec<i64>,
}

impl Offices {
    /// Of any size, one at least.
    fn new(rng: &mut Rng, most: u64) -> Result<Offices, String> {
        let rates = sound_rates(rng, 4);
        let mut all = sound_claims(rng, 1, 4);
        let window = sound_window(rng, &all[0]);
        let mut studies = vec![study_of(rng, window, &all, &rates)?];
        for _ in 0..rng.below(most) {
            let count = rng.below(5) as usize;
            let claims = sound_claims(rng, count, 4);
            studies.push(study_of(rng, window, &claims, &rates)?);
            all.extend(claims);
        }
        let whole = study_of(rng, window, &all, &rates)?;
        Ok(Offices { window, studies, whole })
    }
}

fn trees(rng: &mut Rng) -> Outcome {
    let mut n = 0;
    for _ in 0..1_200 {
        let Offices { window, studies, whole } = Offices::new(rng, 10)?;
        for tree in TREES.repeat(3) {
            let mut studies = studies.clone();
            for _ in 0..rng.below(4) {
                studies.push(fresh(window)?);
            }
            rng.shuffle(&mut studies);
            let count = studies.len();
            let pool = pooled(rng, studies, tree, &mut n)?;
            same(&pool, &whole, || format!("{count} studies in {} to {}, {tree:?}", window.0, window.1))?;
        }
    }
    Ok(n)
}

/// A table of studies, pooled by rows and then by columns, and the other way round.
fn regions_and_lines(rng: &mut Rng) -> Outcome {
    let mut n = 0;
    for _ in 0..300 {
        let Offices { window, mut studies, whole } = Offices::new(rng, 16)?;
        let columns = rng.range(1, 5) as usize;
        while studies.len() % columns != 0 {
            studies.push(fresh(window)?);
        }
        let rows = studies.len() / columns;
        let (by_row, by_column) = (|i: usize| i / columns, |i: usize| i % columns);
        let pool_by = |rng: &mut Rng, groups: usize, group_of: &dyn Fn(usize) -> usize, n: &mut u64| {
            let mut pools = Vec::new();
            for group in 0..groups {
                let members = studies.iter().enumerate().filter(|(i, _)| group_of(*i) == group).map(|(_, study)| study.clone()).collect();
                let tree = rng.pick(&TREES);
                pools.push(pooled(rng, members, tree, n)?);
            }
            let tree = rng.pick(&TREES);
            pooled(rng, pools, tree, n)
        };
        let regions_first = pool_by(rng, rows, &by_row, &mut n)?;
        let lines_first = pool_by(rng, columns, &by_column, &mut n)?;
        let input = || format!("{rows} regions and {columns} lines in {} to {}", window.0, window.1);
        same(&regions_first, &whole, input)?;
        same(&lines_first, &whole, input)?;
    }
    Ok(n)
}

/// So many copies of a study, by doubling.
fn copies(study: &[i64], count: u32, n: &mut u64) -> Result<Vec<i64>, String> {
    let mut pool = fresh((Day(study[0] as i32).date(), Day(study[1] as i32).date()))?;
    for bit in (0..u32::BITS - count.leading_zeros()).rev() {
        let half = pool.clone();
        same(compare_join(&mut pool, &half)?, 0, || format!("{} claims doubled", half[2]))?;
        if count >> bit & 1 == 1 {
            same(compare_join(&mut pool, study)?, 0, || format!("one study more than {} claims", pool[2]))?;
        }
        *n += 2;
    }
    Ok(pool)
}

fn largest(rng: &mut Rng) -> Outcome {
    let mut n = 0;
    for _ in 0..60 {
        let rates = sound_rates(rng, 4);
        let claims = sound_claims(rng, 4, 4);
        let window = sound_window(rng, &claims[0]);
        let all = study_of(rng, window, &claims, &rates)?;
        let whole = copies(&all, MOST_CLAIMS / 4, &mut n)?;
        let mut studies = Vec::new();
        for claim in &claims {
            let one = study_of(rng, window, &[*claim], &rates)?;
            let mut left = MOST_CLAIMS / 4;
            while left > 0 {
                let some = rng.range(1, left as i64) as u32;
                studies.push(copies(&one, some, &mut n)?);
                left -= some;
            }
        }
        studies.push(fresh(window)?);
        for tree in TREES {
            rng.shuffle(&mut studies);
            let mut pool = pooled(rng, studies.clone(), tree, &mut n)?;
            same((&pool, pool[2]), (&whole, MOST_CLAIMS as i64), || format!("{} studies, {tree:?}", studies.len()))?;
            // No claim more, but another fresh study.
            same(compare_join(&mut pool, &all)?, FULL, || "500,004 claims".into())?;
            same(compare_join(&mut pool, &fresh(window)?)?, 0, || "500,000 claims and none".into())?;
            same(&pool, &whole, || "with a fresh study".into())?;
            n += 2;
        }
    }
    Ok(n)
}
