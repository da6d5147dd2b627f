//! The card: start, rebuild, round, position list and anchor.

use crate::function::{bytes, words, Function};
use crate::pebbles::{is_whole, newest, running, Pebbler};
use crate::{check_k, front, value, Refusal, Value, TICKS_MOST};

/// Each card record begins with these two bytes.
const MARK: [u8; 2] = [0xb7, 0x01];
const HEAD_LEN: usize = 16;
const SLOTS_MOST: usize = 38;
/// P_20 alone, or one pebbler for each of 20 bits.
const RUNNING_MOST: usize = 20;

#[derive(Clone, Copy, Debug, PartialEq, Eq)]
pub enum Round {
    Quiet { hashes: u32 },
    Tick { position: u32, hashes: u32 },
}

/// How many positions were listed, and the hashes of the round.
#[derive(Clone, Copy, Debug, PartialEq, Eq)]
pub struct Listed {
    pub held: u32,
    pub hashes: u32,
}

/// Slots in the record of a card of 2^k ticks.
pub const fn slots(k: u32, schedule: u32) -> usize {
    let k = k as usize;
    match schedule {
        1 if k > 3 => 2 * k - 2,
        _ => k + 1,
    }
}

/// Bytes in the record of a card of 2^k ticks.
pub const fn card_len(k: u32, schedule: u32) -> usize {
    HEAD_LEN + 16 * slots(k, schedule)
}

/// The least k with 2^k at least as many as the ticks, or refusal 10.
pub const fn level(ticks: u32) -> Result<u32, Refusal> {
    match ticks {
        1..=TICKS_MOST => Ok(ticks.next_power_of_two().trailing_zeros()),
        _ => Err(Refusal::BadTicks),
    }
}

fn check_schedule(schedule: u32) -> Result<(), Refusal> {
    if schedule > 3 {
        return Err(Refusal::UnknownSchedule);
    }
    Ok(())
}

/// The rounds left in a card's round, or refusal 5.
fn rounds_left(k: u32, round: u32) -> Result<u32, Refusal> {
    if round == 0 || round > 2 << k {
        return Err(Refusal::BadRecord);
    }
    Ok((2 << k) - round)
}

/// Lays out a card of 2^k ticks in the front of `record`, to begin with round 1.
pub fn start(function: u32, k: u32, schedule: u32, seed: &[u8], record: &mut [u8]) -> Result<(), Refusal> {
    Function::of(function)?;
    check_k(k)?;
    check_schedule(schedule)?;
    let seed = value(seed)?;
    lay(function, k, schedule, 1, record)?[0] = *seed;
    Ok(())
}

/// Writes a record before `round` to the front of `record`, and answers its slots, all of them free; or refusal 4.
fn lay(function: u32, k: u32, schedule: u32, round: u32, record: &mut [u8]) -> Result<&mut [Value], Refusal> {
    let record = record.get_mut(..card_len(k, schedule)).ok_or(Refusal::WrongLength)?;
    record.fill(0);
    let (head, slots) = record.split_at_mut(HEAD_LEN);
    head[..2].copy_from_slice(&MARK);
    head[2] = function as u8;
    head[3] = schedule as u8;
    head[4] = k as u8;
    head[8..12].copy_from_slice(&round.to_le_bytes());
    Ok(slots.as_chunks_mut().0)
}

/// Writes the record of a card of 2^k ticks as it stands before `round` to the front of `record`: one walk from the seed up to the highest
/// position held, which leaves the values it passes in their slots.
pub fn rebuild(function: u32, k: u32, schedule: u32, round: u32, seed: &[u8], record: &mut [u8]) -> Result<(), Refusal> {
    let chain = Function::of(function)?;
    let mut list = [0; SLOTS_MOST];
    let held = positions(k, schedule, round, &mut list)?.held as usize;
    let seed = value(seed)?;
    let slots = lay(function, k, schedule, round, record)?;
    let (mut at, mut value) = (0, words(seed));
    for (slot, position) in slots.iter_mut().zip(&list[..held]).rev() {
        value = chain.on(value, position - at);
        at = *position;
        *slot = bytes(value);
    }
    Ok(())
}

/// Lays out a card of so many ticks in the front of `record`, to begin with the round that pays the first of them.
pub fn start_ticks(function: u32, ticks: u32, schedule: u32, seed: &[u8], record: &mut [u8]) -> Result<(), Refusal> {
    Function::of(function)?;
    check_schedule(schedule)?;
    let k = level(ticks)?;
    rebuild(function, k, schedule, (2 << k) - ticks, seed, record)
}

/// What the head of a record says.
struct Head {
    function: Function,
    schedule: u32,
    k: u32,
    round: u32,
}

/// Reads a head, up to refusal 3.
fn read_head(head: &[u8; HEAD_LEN]) -> Result<Head, Refusal> {
    let &[m0, m1, function, schedule, k, z0, z1, z2, r0, r1, r2, r3, ref z @ ..] = head;
    if [m0, m1] != MARK || [z0, z1, z2] != [0; 3] || *z != [0; 4] {
        return Err(Refusal::BadRecord);
    }
    let function = Function::of(function.into())?;
    let (k, schedule) = (k.into(), schedule.into());
    check_k(k)?;
    check_schedule(schedule)?;
    Ok(Head { function, schedule, k, round: u32::from_le_bytes([r0, r1, r2, r3]) })
}

/// One pebbler's part in a round, in numbers.
#[derive(Clone, Copy, Default)]
struct Part {
    /// Values held before the round and after it.
    held: u32,
    later: u32,
    hashes: u32,
    to_do: u32,
}

impl Part {
    #[inline]
    fn of(pebbler: Pebbler, schedule: u32) -> Part {
        let (hashes, to_do) = (pebbler.hashes(schedule), pebbler.to_do(schedule));
        let held = pebbler.level + 1 - newest(to_do);
        let later = if pebbler.left == 0 { pebbler.level } else { pebbler.level + 1 - newest(to_do - hashes) };
        Part { held, later, hashes, to_do }
    }
}

/// Runs one round of the card. A tick goes to the front of `out`; a quiet round leaves it alone.
pub fn round(record: &mut [u8], out: &mut [u8]) -> Result<Round, Refusal> {
    let (head, slots_on) = record.split_first_chunk_mut::<HEAD_LEN>().ok_or(Refusal::WrongLength)?;
    let Head { function, schedule, k, round } = read_head(head)?;
    let slots = slots_on.as_chunks_mut::<16>().0.get_mut(..slots(k, schedule)).ok_or(Refusal::WrongLength)?;
    let left = rounds_left(k, round)?;

    let mut parts = [Part::default(); RUNNING_MOST];
    let (mut count, mut held, mut later, mut hashes) = (0, 0, 0, 0);
    for pebbler in running(k, left) {
        let part = Part::of(pebbler, schedule);
        parts[count] = part;
        count += 1;
        held += part.held as usize;
        later += part.later as usize;
        hashes += part.hashes;
    }
    if slots[held..].iter().any(|slot| *slot != [0; 16]) {
        return Err(Refusal::BadRecord);
    }
    if left == 0 {
        return Err(Refusal::Spent);
    }
    let out = front(out)?;
    if later > slots.len() {
        return Err(Refusal::NoRoom);
    }

    head[8..12].copy_from_slice(&(round + 1).to_le_bytes());
    let mut scratch = [[0; 16]; SLOTS_MOST];
    scratch[..held].copy_from_slice(&slots[..held]);
    let (mut old, mut new) = (&scratch[..held], &mut *slots);
    for part in &parts[..count] {
        let (old_part, old_rest) = old.split_at(part.held as usize);
        let (new_part, new_rest) = new.split_at_mut(part.later as usize);
        turn(function, part, old_part, new_part);
        (old, new) = (old_rest, new_rest);
    }
    new.fill([0; 16]);

    if left > 1 << k {
        return Ok(Round::Quiet { hashes });
    }
    *out = scratch[0];
    Ok(Round::Tick { position: left - 1, hashes })
}

/// One pebbler's round. Its y's stand newest first; without a hash they stay, but for the y_0 that is put out.
#[inline]
fn turn(function: Function, part: &Part, old: &[Value], new: &mut [Value]) {
    let kept = old.len().min(new.len());
    let begun = new.len() - kept;
    new[begun..].copy_from_slice(&old[old.len() - kept..]);
    if part.hashes == 0 {
        return;
    }
    let mut at = begun;
    let mut value = words(&new[at]);
    for to_do in (part.to_do - part.hashes + 1..=part.to_do).rev() {
        value = function.next(value);
        if is_whole(to_do) {
            at -= 1;
        }
        new[at] = bytes(value);
    }
}

/// Writes the positions that a card holds before a round to the front of `list`, in falling order.
pub fn positions(k: u32, schedule: u32, round: u32, list: &mut [u32]) -> Result<Listed, Refusal> {
    check_k(k)?;
    check_schedule(schedule)?;
    let left = rounds_left(k, round)?;
    let pebblers = running(k, left);
    let held = pebblers.map(|pebbler| Part::of(pebbler, schedule).held).sum();
    let list = list.get_mut(..held as usize).ok_or(Refusal::WrongLength)?;
    let mut entries = list.iter_mut();
    let mut hashes = 0;
    for pebbler in pebblers {
        let all = (1 << pebbler.level) - 1;
        let to_do = pebbler.to_do(schedule);
        hashes += pebbler.hashes(schedule);
        let whole = (newest(to_do) + 1..=pebbler.level).map(|y| pebbler.base + all + 1 - (1 << y));
        for (position, entry) in std::iter::once(pebbler.base + all - to_do).chain(whole).zip(&mut entries) {
            *entry = position;
        }
    }
    Ok(Listed { held, hashes })
}

/// Writes the anchor of a card of 2^k ticks to the front of `out`.
pub fn anchor(function: u32, k: u32, seed: &[u8], out: &mut [u8]) -> Result<(), Refusal> {
    let function = Function::of(function)?;
    check_k(k)?;
    let (seed, out) = (value(seed)?, front(out)?);
    *out = function.walk(seed, 1 << k);
    Ok(())
}

/// Writes the anchor of a card of so many ticks to the front of `out`.
pub fn anchor_ticks(function: u32, ticks: u32, seed: &[u8], out: &mut [u8]) -> Result<(), Refusal> {
    let function = Function::of(function)?;
    level(ticks)?;
    let (seed, out) = (value(seed)?, front(out)?);
    *out = function.walk(seed, ticks);
    Ok(())
}
