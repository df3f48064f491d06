//! Claims, tables and windows with several faults at once, so that the order of the checks decides.

use crate::inputs::STUDY_WINDOW;
use crate::one_input::{BENEFIT, CELL, DATE, FULL, RATE, RATE_TABLE, SEQUENCE, SHORT_ELIMINATION, STATUS, WINDOW};
use second::calendar::Date;
use second::claim::{Claim, CLOSED, MOST_BENEFIT};
use second::generate::{sound_claim, sound_rates};
use second::rates::CELL_LENGTH;
use second::rng::Rng;
use second::study::Study;

/// The faults that checks find, in the order of the checks: the window, the claim, the rates, room.
pub const FAULTS: [u8; 10] = [WINDOW, DATE, STATUS, SEQUENCE, BENEFIT, SHORT_ELIMINATION, RATE_TABLE, CELL, RATE, FULL];
/// Those of the claim alone.
pub const OF_CLAIM: [u8; 5] = [DATE, STATUS, SEQUENCE, BENEFIT, SHORT_ELIMINATION];
/// Those of the claim and the rates.
pub const OF_CLAIM_AND_RATES: [u8; 8] = [DATE, STATUS, SEQUENCE, BENEFIT, SHORT_ELIMINATION, RATE_TABLE, CELL, RATE];

/// A closed claim and rates of two cells with some of the faults.
#[derive(Debug)]
pub struct Faulty {
    pub faults: Vec<u8>,
    pub claim: Claim,
    pub rates: Vec<u32>,
}

impl Faulty {
    pub fn new(rng: &mut Rng) -> Faulty {
        let one_in = rng.pick(&[2, 4, 8]);
        let faults = FAULTS.into_iter().filter(|_| rng.one_in(one_in)).collect();
        Faulty::with(rng, faults)
    }

    /// With these faults, in the order of the checks.
    pub fn with(rng: &mut Rng, faults: Vec<u8>) -> Faulty {
        let has = |fault: u8| faults.contains(&fault);
        let mut claim = sound_claim(rng);
        while claim.status != CLOSED || claim.bcd.day_number().unwrap().0 < 20 {
            claim = sound_claim(rng);
        }
        let bcd = claim.bcd.day_number().unwrap();
        let mut rates = sound_rates(rng, 2);
        claim.cell = if has(CELL) { 2 } else { 0 };
        if has(DATE) {
            claim.maximum = Date::new(2001, 2, 29);
        }
        if has(STATUS) {
            claim.code = rng.pick(&[0, 7, 255]);
        }
        if has(SEQUENCE) {
            claim.termination = (bcd + -1).date();
        }
        if has(BENEFIT) {
            claim.benefit = rng.range(MOST_BENEFIT as i64 + 1, 255) as u8;
        }
        if has(SHORT_ELIMINATION) {
            claim.disability = (bcd + -rng.range(0, 14) as i32).date();
        }
        if has(RATE) {
            rates[rng.below(CELL_LENGTH as u64) as usize] = 1_000_001;
        }
        if has(RATE_TABLE) {
            rates.pop();
        }
        Faulty { faults, claim, rates }
    }

    pub fn has(&self, fault: u8) -> bool {
        self.faults.contains(&fault)
    }

    /// The first of these faults, or 0.
    pub fn first_of(&self, checked: &[u8]) -> u8 {
        self.faults.iter().copied().find(|fault| checked.contains(fault)).unwrap_or(0)
    }

    /// The study's window, its ends the wrong way round for a fault.
    pub fn window(&self) -> (Date, Date) {
        let (first, last) = STUDY_WINDOW;
        if self.has(WINDOW) {
            (last, first)
        } else {
            (first, last)
        }
    }

    /// A study without sums in that window, in which so many claims are taken.
    pub fn study(&self, taken: u32) -> Vec<i64> {
        let mut numbers = Study::open(STUDY_WINDOW.0, STUDY_WINDOW.1).unwrap().numbers().to_vec();
        if self.has(WINDOW) {
            numbers.swap(0, 1);
        }
        numbers[2] = taken as i64;
        numbers
    }
}

impl std::fmt::Display for Faulty {
    fn fmt(&self, f: &mut std::fmt::Formatter) -> std::fmt::Result {
        write!(f, "{} with the faults {:?}", self.claim, self.faults)
    }
}
