//! The small company rule: which carrier is exempt, and the first group whose T moves by more than a tenth.

use crate::block::{read_claim, CLAIM_LENGTH};
use crate::calendar::{month_length, Date, Day};
use crate::claim::{Claim, OPEN};
use crate::rates::MILLION;
use crate::Refusal;

/// An exempt carrier has fewer open claims than these, disabled within two years of the valuation date and earlier.
const RECENT_LIMIT: u64 = 50;
const EARLIER_LIMIT: u64 = 200;

#[derive(Clone, Copy, Debug, PartialEq, Eq)]
pub struct SmallCompany {
    pub exempt: bool,
    /// Open claims disabled within two years of the valuation date, and earlier.
    pub recent: u64,
    pub earlier: u64,
    /// The first group in which new and old T differ by more than a tenth of the old; 0 for none, and for an exempt carrier.
    pub group: u8,
    pub t: [u64; 5],
}

/// Judges a carrier by the records of its claims, one after the other, with the new T and those in use. Check 2 of the valuation date; 11: a
/// part of a record at the end, or bytes that make no record; then of each claim in order checks 2 to 4, 16 and 5.
pub fn small_company(valuation: Date, records: &[u8], new_t: &[u64; 5], old_t: &[u64; 5]) -> Result<SmallCompany, Refusal> {
    let valuation_day = valuation.day_number().ok_or(Refusal::Date)?;
    let two_years_before = two_years_before(valuation).day_number().unwrap_or(Day::FIRST);
    let claims: Option<Vec<Claim>> = records.chunks(CLAIM_LENGTH).map(read_claim).collect();

    let (mut recent, mut earlier) = (0, 0);
    for claim in claims.ok_or(Refusal::Block)? {
        claim.check()?;
        match claim.disability.day_number() {
            Some(disabled) if claim.status == OPEN && disabled <= valuation_day => {
                if disabled < two_years_before {
                    earlier += 1;
                } else {
                    recent += 1;
                }
            }
            _ => {}
        }
    }

    let exempt = recent < RECENT_LIMIT && earlier < EARLIER_LIMIT;
    let (group, t) = if exempt { (0, [MILLION as u64; 5]) } else { (first_moved(new_t, old_t), *new_t) };
    Ok(SmallCompany { exempt, recent, earlier, group, t })
}

/// The same day two years before a date, 28 February for the 29th; before 1950 it is no date, and no claim is disabled before it.
fn two_years_before(date: Date) -> Date {
    let year = date.year - 2;
    Date { year, day: date.day.min(month_length(year, date.month)), ..date }
}

fn first_moved(new_t: &[u64; 5], old_t: &[u64; 5]) -> u8 {
    let moved = |(_, (&new, &old)): &(u8, (&u64, &u64))| 10 * new.abs_diff(old) as u128 > old as u128;
    (1..).zip(new_t.iter().zip(old_t)).find(moved).map_or(0, |(group, _)| group)
}
