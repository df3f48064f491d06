//! A load: sound claims as a carrier might have them, and the rates of their cells.

use crate::calendar::{Date, Day};
use crate::claim::{Claim, CLOSED, DEATH, LIMIT, MAX_OUT, MOST_BENEFIT, OPEN, RECOVERY, SETTLEMENT};
use crate::generate::any_cell;
use crate::rates::DURATIONS;
use crate::rng::Rng;

/// The study's window.
pub use crate::examples::STUDY_WINDOW as NINE_YEARS;

fn day(year: u16, month: u8, day: u8) -> Day {
    Date::new(year, month, day).day_number().unwrap()
}

/// Claims of `cells` cells with all benefits; fewer of them with one seed are the first of more.
pub fn claims(seed: u64, count: usize, cells: usize) -> Vec<Claim> {
    // Benefits have a generator of their own, so that the claims are otherwise what they were without.
    let (mut rng, mut benefits) = (Rng::new(seed), Rng::new(!seed));
    (1..=count as u32)
        .map(|number| Claim { benefit: benefits.range(0, MOST_BENEFIT as i64) as u8, ..claim(&mut rng, number, cells) })
        .collect()
}

fn claim(rng: &mut Rng, number: u32, cells: usize) -> Claim {
    let disability = Day(rng.range(day(1995, 1, 1).0 as i64, day(2017, 12, 31).0 as i64) as i32);
    let elimination_period = rng.pick(&[30, 60, 90, 90, 90, 90, 180, 180, 180, 365]) + if rng.one_in(4) { rng.below(6) as i32 } else { 0 };
    let bcd = disability + elimination_period;
    // Benefits run 2 to 30 years; one claim in five has no known maximum date.
    let maximum = (!rng.one_in(5)).then(|| bcd + rng.range(730, 10_950) as i32);
    let mut claim = Claim {
        number,
        disability: disability.date(),
        bcd: bcd.date(),
        maximum: maximum.map_or(Date::MISSING, Day::date),
        status: OPEN,
        cell: any_cell(rng, cells),
        ..Claim::default()
    };
    if rng.one_in(2) {
        // Terminations crowd towards the start of the claim.
        let longest = rng.range(1, 5_400);
        let last = maximum.unwrap_or(bcd + 5_400);
        let termination = last.min(bcd + rng.range(0, longest) as i32);
        claim.status = CLOSED;
        claim.termination = termination.date();
        claim.code = rng.pick(&[RECOVERY, RECOVERY, RECOVERY, RECOVERY, DEATH, DEATH, SETTLEMENT, MAX_OUT, LIMIT]);
    }
    claim
}

/// Rates that fall with the duration; recovery and death rate together stay below 1,000,000.
pub fn rates(seed: u64, cells: usize) -> Vec<u32> {
    let mut rng = Rng::new(seed);
    let mut rates = Vec::new();
    for _ in 0..cells {
        for most in [60_000, 12_000] {
            let first = rng.range(most / 2, most);
            rates.extend((0..DURATIONS as i64).map(|i| (first * 24 / (24 + i)) as u32 + rng.below(500) as u32));
        }
    }
    rates
}
