//! Claim file: blocks of 512 bytes, checked, read and written.

use crate::calendar::Date;
use crate::claim::Claim;
use crate::Refusal;

pub const BLOCK_LENGTH: usize = 512;
pub const CLAIM_LENGTH: usize = 32;
pub const MOST_IN_BLOCK: usize = 15;
/// The most bytes that the records of a block take.
pub const RECORDS_LENGTH: usize = MOST_IN_BLOCK * CLAIM_LENGTH;
/// Where the bytes of a record that must be zero start.
pub const ZEROS_AT: usize = 25;
const COUNT_AT: usize = 2;
const CLAIMS_AT: usize = 16;
const WINDOW_END: usize = CLAIMS_AT + 8;
pub const CHECK_AT: usize = 510;

/// What a sound block holds.
#[allow(clippy::large_enum_variant)]
#[derive(Clone, Copy, Debug, PartialEq, Eq)]
pub enum Block {
    /// Block 0: the window's dates.
    Window(Date, Date),
    Claims(ClaimBlock),
}

/// The claims of a block; those past the count are all zero.
#[derive(Clone, Copy, Debug, PartialEq, Eq)]
pub struct ClaimBlock {
    pub count: usize,
    pub claims: [Claim; MOST_IN_BLOCK],
}

/// The sum over i = 0..509 of (i + 1) × byte i, modulo 65,521.
pub fn check_sum(block: &[u8]) -> u16 {
    let sum: u32 = block[..CHECK_AT].iter().zip(1u32..).map(|(&byte, weight)| weight * byte as u32).sum();
    (sum % 65_521) as u16
}

/// Writes the check into a block.
pub fn seal(block: &mut [u8]) {
    let check = check_sum(block).to_le_bytes();
    block[CHECK_AT..BLOCK_LENGTH].copy_from_slice(&check);
}

fn all_zero(bytes: &[u8]) -> bool {
    bytes.iter().all(|&byte| byte == 0)
}

/// Reads the block whose number is due. Check 11.
pub fn read_block(block: &[u8], due: u32) -> Result<Block, Refusal> {
    if block.len() != BLOCK_LENGTH || block[CHECK_AT..] != check_sum(block).to_le_bytes() {
        return Err(Refusal::Block);
    }
    let number = u16::from_le_bytes([block[0], block[1]]);
    let count = block[COUNT_AT] as usize;
    let most = if due == 0 { 0 } else { MOST_IN_BLOCK };
    if number as u32 != due || count > most || !all_zero(&block[COUNT_AT + 1..CLAIMS_AT]) {
        return Err(Refusal::Block);
    }

    if due == 0 {
        if !all_zero(&block[WINDOW_END..CHECK_AT]) {
            return Err(Refusal::Block);
        }
        return Ok(Block::Window(date_at(block, CLAIMS_AT), date_at(block, CLAIMS_AT + 4)));
    }

    let (used, unused) = block[CLAIMS_AT..CHECK_AT].split_at(count * CLAIM_LENGTH);
    let mut claims = [Claim::default(); MOST_IN_BLOCK];
    if !all_zero(unused) {
        return Err(Refusal::Block);
    }
    for (claim, bytes) in claims.iter_mut().zip(used.chunks_exact(CLAIM_LENGTH)) {
        *claim = read_claim(bytes).ok_or(Refusal::Block)?;
    }
    Ok(Block::Claims(ClaimBlock { count, claims }))
}

/// Writes a claim block. Check 11: the length, more than 15 claims, or claims as block 0; a number no block can carry is refused too.
pub fn write_block(number: u32, claims: &[Claim], block: &mut [u8]) -> Result<(), Refusal> {
    let carried = match u16::try_from(number) {
        Ok(carried) if carried != 0 => carried,
        _ => return Err(Refusal::Block),
    };
    if block.len() != BLOCK_LENGTH || claims.len() > MOST_IN_BLOCK {
        return Err(Refusal::Block);
    }
    block.fill(0);
    block[..2].copy_from_slice(&carried.to_le_bytes());
    block[COUNT_AT] = claims.len() as u8;
    for (bytes, claim) in block[CLAIMS_AT..].chunks_exact_mut(CLAIM_LENGTH).zip(claims) {
        bytes.copy_from_slice(&claim_record(claim));
    }
    seal(block);
    Ok(())
}

/// Reads the records of a claim block at the number due into `records`, the rest untouched, and answers how many. Check 11; block 0 holds
/// no records.
pub fn read_records(block: &[u8], due: u32, records: &mut [u8; RECORDS_LENGTH]) -> Result<usize, Refusal> {
    let Block::Claims(ClaimBlock { count, claims }) = read_block(block, due)? else { return Err(Refusal::Block) };
    for (record, claim) in records.chunks_exact_mut(CLAIM_LENGTH).zip(&claims[..count]) {
        record.copy_from_slice(&claim_record(claim));
    }
    Ok(count)
}

/// Writes a claim block of records, one after the other. Check 11: also a part of a record at the end, or bytes that make no record.
pub fn write_records(number: u32, records: &[u8], block: &mut [u8]) -> Result<(), Refusal> {
    let claims: Option<Vec<Claim>> = records.chunks(CLAIM_LENGTH).map(read_claim).collect();
    write_block(number, &claims.ok_or(Refusal::Block)?, block)
}

/// Writes block 0 with a window's dates. Check 11: the length.
pub fn write_window(first: Date, last: Date, block: &mut [u8]) -> Result<(), Refusal> {
    if block.len() != BLOCK_LENGTH {
        return Err(Refusal::Block);
    }
    block.fill(0);
    block[CLAIMS_AT..CLAIMS_AT + 4].copy_from_slice(&first.to_bytes());
    block[CLAIMS_AT + 4..WINDOW_END].copy_from_slice(&last.to_bytes());
    seal(block);
    Ok(())
}

fn four(bytes: &[u8], at: usize) -> [u8; 4] {
    [bytes[at], bytes[at + 1], bytes[at + 2], bytes[at + 3]]
}

fn date_at(bytes: &[u8], at: usize) -> Date {
    Date::from_bytes(four(bytes, at))
}

/// The claim of a record, the first 32 bytes; none if there are fewer or one of the bytes 25 to 31 is not zero.
pub fn read_claim(bytes: &[u8]) -> Option<Claim> {
    let bytes = bytes.get(..CLAIM_LENGTH)?;
    if !all_zero(&bytes[ZEROS_AT..]) {
        return None;
    }
    Some(Claim {
        number: u32::from_le_bytes(four(bytes, 0)),
        disability: date_at(bytes, 4),
        bcd: date_at(bytes, 8),
        termination: date_at(bytes, 12),
        maximum: date_at(bytes, 16),
        status: bytes[20],
        code: bytes[21],
        cell: u16::from_le_bytes([bytes[22], bytes[23]]),
        benefit: bytes[24],
    })
}

/// A claim's record.
pub fn claim_record(claim: &Claim) -> [u8; CLAIM_LENGTH] {
    let mut bytes = [0; CLAIM_LENGTH];
    bytes[..4].copy_from_slice(&claim.number.to_le_bytes());
    bytes[4..8].copy_from_slice(&claim.disability.to_bytes());
    bytes[8..12].copy_from_slice(&claim.bcd.to_bytes());
    bytes[12..16].copy_from_slice(&claim.termination.to_bytes());
    bytes[16..20].copy_from_slice(&claim.maximum.to_bytes());
    bytes[20] = claim.status;
    bytes[21] = claim.code;
    bytes[22..24].copy_from_slice(&claim.cell.to_le_bytes());
    bytes[24] = claim.benefit;
    bytes
}
