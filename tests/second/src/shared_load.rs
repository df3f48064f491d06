//! A load that anyone can rebuild: the same claims from the same seed.

use crate::calendar::{Date, Day};
use crate::claim::{Claim, CLOSED};
use crate::Refusal;

/// The most claims of a load.
pub const LARGEST_LOAD: u32 = 500_000;
const MULTIPLIER: u64 = 48_271;
/// A seed, and every x reached, is from 1 to one less.
pub const MODULUS: u32 = 2_147_483_647;

/// Sets x to 48,271 × x modulo 2,147,483,647; the draw is that x.
fn draw(x: &mut u32) -> u32 {
    *x = (MULTIPLIER * *x as u64 % MODULUS as u64) as u32;
    *x
}

/// The claim due of a load of `size` claims, and the x reached. Check 20: x, size or number out of range.
pub fn load_claim(x: u32, size: u32, number: u32) -> Result<(Claim, u32), Refusal> {
    if !(1..MODULUS).contains(&x) || size > LARGEST_LOAD || !(1..=size).contains(&number) {
        return Err(Refusal::Load);
    }
    let mut x = x;
    let disability = Day((draw(&mut x) % 20_000) as i32);
    let bcd = disability + 15 + (draw(&mut x) % 351) as i32;
    let status = (draw(&mut x) % 2) as u8;
    // Drawn for open claims too.
    let termination = bcd + (draw(&mut x) % 4_000) as i32;
    let code = 1 + (draw(&mut x) % 5) as u8;
    let (termination, code) = if status == CLOSED { (termination.date(), code) } else { (Date::MISSING, 0) };
    Ok((Claim { number, disability: disability.date(), bcd: bcd.date(), termination, status, code, ..Claim::default() }, x))
}

/// The claims of a whole load.
pub fn load(seed: u32, size: u32) -> Result<Vec<Claim>, Refusal> {
    let mut x = seed;
    let mut claims = Vec::new();
    for number in 1..=size {
        let (claim, reached) = load_claim(x, size, number)?;
        claims.push(claim);
        x = reached;
    }
    Ok(claims)
}
