//! The post: enrol, offer and settle.

use crate::function::{bytes, words, Function};
use crate::{check_k, front, value, Refusal, GAP_MOST, POST_LEN};

/// Each post record begins with these two bytes.
const MARK: [u8; 2] = [0xb7, 0x02];

/// Writes the record of a post that has taken nothing yet to the front of `record`.
pub fn enrol(function: u32, k: u32, anchor: &[u8], record: &mut [u8]) -> Result<(), Refusal> {
    Function::of(function)?;
    check_k(k)?;
    let anchor = value(anchor)?;
    let record = front::<POST_LEN>(record)?;
    record[..2].copy_from_slice(&MARK);
    record[2] = function as u8;
    record[3] = k as u8;
    record[4..8].fill(0);
    record[8..24].copy_from_slice(anchor);
    record[24..].copy_from_slice(anchor);
    Ok(())
}

/// Offers a value to a post, and answers the ticks credited.
pub fn offer(record: &mut [u8], offered: &[u8], gap: u32) -> Result<u32, Refusal> {
    let record = front::<POST_LEN>(record)?;
    let &mut [m0, m1, function, k, p0, p1, p2, p3, ..] = record;
    if [m0, m1] != MARK {
        return Err(Refusal::BadRecord);
    }
    let function = Function::of(function.into())?;
    let k = k.into();
    check_k(k)?;
    let paid = u32::from_le_bytes([p0, p1, p2, p3]);
    if paid > 1 << k || (paid == 0 && record[8..24] != record[24..]) {
        return Err(Refusal::BadRecord);
    }
    if !(1..=GAP_MOST).contains(&gap) {
        return Err(Refusal::BadGap);
    }
    let unpaid = (1 << k) - paid;
    if unpaid == 0 {
        return Err(Refusal::Spent);
    }
    let offered = value(offered)?;
    let mut reached = words(offered);
    for credit in 1..=gap.min(unpaid) {
        reached = function.next(reached);
        if bytes(reached) == record[24..] {
            record[4..8].copy_from_slice(&(paid + credit).to_le_bytes());
            record[24..].copy_from_slice(offered);
            return Ok(credit);
        }
    }
    Err(Refusal::NotTaken)
}

/// Whether as many steps as are paid lead from the last value to the anchor.
pub fn settle(function: u32, k: u32, anchor: &[u8], last: &[u8], paid: u32) -> Result<bool, Refusal> {
    let function = Function::of(function)?;
    check_k(k)?;
    let (anchor, last) = (value(anchor)?, value(last)?);
    if paid > 1 << k {
        return Err(Refusal::BadRecord);
    }
    Ok(function.walk(last, paid) == *anchor)
}
