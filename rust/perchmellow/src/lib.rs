//! The calls of a card and a post, safe and with Rust's types, over the proved static library.
//!
//! Every call checks its own input and answers a [`Refusal`] where it cannot do what is asked; then no lent byte has changed. Slices of
//! any length may be lent. The numbers and layouts are those of `include/perchmellow.h`. The crate needs neither std nor a heap.
//!
//! ```
//! use perchmellow::{anchor, card_len, enrol, offer, round, start, Round, OPTIMAL, POST_LEN, VALUE_LEN};
//!
//! let (k, seed) = (4, [7; VALUE_LEN]);
//! let mut card = vec![0; card_len(k, OPTIMAL)];
//! let (mut last, mut post, mut tick) = ([0; VALUE_LEN], [0; POST_LEN], [0; VALUE_LEN]);
//! start(0, k, OPTIMAL, &seed, &mut card)?;
//! anchor(0, k, &seed, &mut last)?;
//! enrol(0, k, &last, &mut post)?;
//! let mut credited = 0;
//! while credited < 16 {
//!     if let Round::Tick { .. } = round(&mut card, &mut tick)? {
//!         credited += offer(&mut post, &tick, 1)?;
//!     }
//! }
//! # Ok::<(), perchmellow::Refusal>(())
//! ```
//!
//! A card may have any number of ticks up to [`TICKS_MOST`]. Its [`level`] is the k that its record is laid out by, and every round of it
//! is a tick:
//!
//! ```
//! use perchmellow::{anchor_ticks, card_len, enrol, level, offer, round, start_ticks, Refusal, MD5, OPTIMAL, POST_LEN, VALUE_LEN};
//!
//! let (k, seed) = (level(300)?, [7; VALUE_LEN]);
//! let mut card = vec![0; card_len(k, OPTIMAL)];
//! let (mut last, mut post, mut tick) = ([0; VALUE_LEN], [0; POST_LEN], [0; VALUE_LEN]);
//! start_ticks(MD5, 300, OPTIMAL, &seed, &mut card)?;
//! anchor_ticks(MD5, 300, &seed, &mut last)?;
//! enrol(MD5, k, &last, &mut post)?;
//! for _ in 0..300 {
//!     round(&mut card, &mut tick)?;
//!     offer(&mut post, &tick, 1)?;
//! }
//! assert_eq!(round(&mut card, &mut tick), Err(Refusal::Spent));
//! # Ok::<(), perchmellow::Refusal>(())
//! ```

#![no_std]
#![deny(missing_docs)]

use core::fmt;

/// What proved and built the library that is linked: the line that `rt version` says.
pub const PROVED_BY: &str = env!("PERCHMELLOW_PROVED_BY");

/// Bytes in a value: a seed, an anchor or a tick.
pub const VALUE_LEN: usize = 16;
/// Bytes in front of a card's slots.
pub const CARD_HEAD_LEN: usize = 16;
/// Bytes in the longest card record.
pub const CARD_LEN_MOST: usize = 624;
/// Bytes in a post record.
pub const POST_LEN: usize = 40;
/// The most positions that a list can ask for.
pub const POSITIONS_MOST: usize = 38;
/// The greatest k.
pub const K_MOST: u32 = 20;
/// The most ticks that a card can have.
pub const TICKS_MOST: u32 = 1 << K_MOST;
/// The greatest gap limit.
pub const GAP_MOST: u32 = 64;

/// Function 0: MD5 of the value.
pub const MD5: u32 = 0;
/// Function 1: AES-128 of the zero block under the value.
pub const AES: u32 = 1;

/// Schedule 0: all the hashes in the last preparing round.
pub const RUSHING: u32 = 0;
/// Schedule 1: one hash in each preparing round.
pub const SPEED_1: u32 = 1;
/// Schedule 2: two hashes in each preparing round of the second half.
pub const SPEED_2: u32 = 2;
/// Schedule 3: no paying round does more than half of k hashes, rounded up.
pub const OPTIMAL: u32 = 3;

/// Slots in the record of a card of 2^k ticks: k + 1, under speed-1 the larger of k + 1 and 2k - 2.
pub const fn slots(k: u32, schedule: u32) -> usize {
    let k = k as usize;
    if schedule == SPEED_1 && k > 3 {
        2 * k - 2
    } else {
        k + 1
    }
}

/// Bytes in the record of a card of 2^k ticks.
pub const fn card_len(k: u32, schedule: u32) -> usize {
    CARD_HEAD_LEN + VALUE_LEN * slots(k, schedule)
}

/// The level of a card of so many ticks: the least k with 2^k at least as many.
///
/// # Errors
///
/// [`Refusal::BadTicks`] for ticks outside 1 to [`TICKS_MOST`].
///
/// ```
/// use perchmellow::{level, Refusal, TICKS_MOST};
///
/// assert_eq!((level(256), level(257), level(300)), (Ok(8), Ok(9), Ok(9)));
/// assert_eq!((level(0), level(TICKS_MOST + 1)), (Err(Refusal::BadTicks), Err(Refusal::BadTicks)));
/// ```
pub const fn level(ticks: u32) -> Result<u32, Refusal> {
    match ticks {
        1..=TICKS_MOST => Ok(u32::BITS - (ticks - 1).leading_zeros()),
        _ => Err(Refusal::BadTicks),
    }
}

/// Why a call did nothing. Its number is the one said at the counter.
#[derive(Clone, Copy, Debug, PartialEq, Eq, Hash)]
#[repr(u8)]
pub enum Refusal {
    /// The function is not 0 or 1.
    UnknownFunction = 1,
    /// k is over 20.
    TooManyTicks = 2,
    /// The schedule is over 3.
    UnknownSchedule = 3,
    /// A seed, anchor or value is not of 16 bytes, or a record, list or out buffer is too short.
    WrongLength = 4,
    /// The record is not laid out as it should be, or a round or the ticks paid are out of range.
    BadRecord = 5,
    /// The card has no round left, or the post is paid in full.
    Spent = 6,
    /// The gap limit is not from 1 to 64.
    BadGap = 7,
    /// More values would be held after the round than the record has slots. No record earns it.
    NoRoom = 8,
    /// No number of steps within the limit leads from the value to the one held.
    NotTaken = 9,
    /// The number of ticks is not from 1 to 1,048,576.
    BadTicks = 10,
}

impl Refusal {
    /// The number said at the counter.
    pub const fn number(self) -> u8 {
        self as u8
    }

    /// The refusal that has this number, if there is one.
    pub const fn of(number: u8) -> Option<Refusal> {
        Some(match number {
            1 => Refusal::UnknownFunction,
            2 => Refusal::TooManyTicks,
            3 => Refusal::UnknownSchedule,
            4 => Refusal::WrongLength,
            5 => Refusal::BadRecord,
            6 => Refusal::Spent,
            7 => Refusal::BadGap,
            8 => Refusal::NoRoom,
            9 => Refusal::NotTaken,
            10 => Refusal::BadTicks,
            _ => return None,
        })
    }
}

impl fmt::Display for Refusal {
    fn fmt(&self, f: &mut fmt::Formatter<'_>) -> fmt::Result {
        f.write_str(match self {
            Refusal::UnknownFunction => "the function is not one of 0 (MD5) and 1 (AES)",
            Refusal::TooManyTicks => "k is over 20",
            Refusal::UnknownSchedule => "the schedule is not one of 0 (rushing), 1 (speed-1), 2 (speed-2) and 3 (optimal)",
            Refusal::WrongLength => "a seed, anchor or value is not of 16 bytes, or a record, list or out buffer is too short",
            Refusal::BadRecord => "the record is not laid out as it should be, or a round or the ticks paid are out of range",
            Refusal::Spent => "the card has no round left, or the post is paid in full",
            Refusal::BadGap => "the gap limit is not from 1 to 64",
            Refusal::NoRoom => "the record has too few slots for what the round would hold",
            Refusal::NotTaken => "no number of steps within the gap limit and the unpaid ticks leads to the value held",
            Refusal::BadTicks => "the number of ticks is not from 1 to 1048576",
        })
    }
}

impl core::error::Error for Refusal {}

/// What a round did.
#[derive(Clone, Copy, Debug, PartialEq, Eq)]
pub enum Round {
    /// A preparing round: nothing was put out.
    Quiet {
        /// The hashes of the round.
        hashes: u32,
    },
    /// A paying round: the chain's element at this position stands in the out buffer.
    Tick {
        /// The tick's place in the chain.
        position: u32,
        /// The hashes of the round.
        hashes: u32,
    },
}

/// What a position list has: how many positions, and the hashes of the round.
#[derive(Clone, Copy, Debug, PartialEq, Eq)]
pub struct Listed {
    /// How many positions the list has.
    pub held: u32,
    /// The hashes of the round.
    pub hashes: u32,
}

/// The word that a call answers: bits 0-7 a refusal's number, 8-15 a kind, 16-39 the first number, 40-63 the second.
struct Word(u64);

impl Word {
    fn check(self) -> Result<Word, Refusal> {
        let number = self.0 as u8;
        match Refusal::of(number) {
            None if number == 0 => Ok(self),
            None => unreachable!("the library answered refusal {number}, which its contract rules out"),
            Some(refusal) => Err(refusal),
        }
    }

    fn kind(&self) -> bool {
        self.0 >> 8 & 0xff == 1
    }

    fn first(&self) -> u32 {
        (self.0 >> 16 & 0xff_ffff) as u32
    }

    fn second(&self) -> u32 {
        (self.0 >> 40) as u32
    }
}

mod raw {
    extern "C" {
        pub fn perchmellow_start(
            function: u32,
            k: u32,
            schedule: u32,
            seed: *const u8,
            seed_len: usize,
            record: *mut u8,
            record_len: usize,
        ) -> u64;
        pub fn perchmellow_start_ticks(
            function: u32,
            ticks: u32,
            schedule: u32,
            seed: *const u8,
            seed_len: usize,
            record: *mut u8,
            record_len: usize,
        ) -> u64;
        pub fn perchmellow_rebuild(
            function: u32,
            k: u32,
            schedule: u32,
            round: u32,
            seed: *const u8,
            seed_len: usize,
            record: *mut u8,
            record_len: usize,
        ) -> u64;
        pub fn perchmellow_round(record: *mut u8, record_len: usize, out: *mut u8, out_len: usize) -> u64;
        pub fn perchmellow_positions(k: u32, schedule: u32, round: u32, list: *mut u32, list_len: usize) -> u64;
        pub fn perchmellow_anchor(function: u32, k: u32, seed: *const u8, seed_len: usize, out: *mut u8, out_len: usize) -> u64;
        pub fn perchmellow_anchor_ticks(function: u32, ticks: u32, seed: *const u8, seed_len: usize, out: *mut u8, out_len: usize) -> u64;
        pub fn perchmellow_enrol(function: u32, k: u32, anchor: *const u8, anchor_len: usize, record: *mut u8, record_len: usize) -> u64;
        pub fn perchmellow_offer(record: *mut u8, record_len: usize, value: *const u8, value_len: usize, gap: u32) -> u64;
        pub fn perchmellow_settle(
            function: u32,
            k: u32,
            anchor: *const u8,
            anchor_len: usize,
            last: *const u8,
            last_len: usize,
            paid: u32,
        ) -> u64;
    }
}

// Each call below lends slices, so a pointer is good for its length, and what is written to overlaps nothing else: that is all
// the library asks of its caller. Refusals stand in the order of the tests.

/// Lays out a card of 2^k ticks in the front of `record`, to begin with round 1.
///
/// # Errors
///
/// The first that applies of
/// - [`Refusal::UnknownFunction`],
/// - [`Refusal::TooManyTicks`],
/// - [`Refusal::UnknownSchedule`] and
/// - [`Refusal::WrongLength`]: the seed is not of 16 bytes, or the record is too short.
pub fn start(function: u32, k: u32, schedule: u32, seed: &[u8], record: &mut [u8]) -> Result<(), Refusal> {
    let word = unsafe { raw::perchmellow_start(function, k, schedule, seed.as_ptr(), seed.len(), record.as_mut_ptr(), record.len()) };
    Word(word).check().map(|_| ())
}

/// Lays out a card of so many ticks in the front of `record`, to begin with the round that pays the first of them.
///
/// ```
/// use perchmellow::{card_len, level, round, start_ticks, Round, AES, OPTIMAL, VALUE_LEN};
///
/// let mut card = vec![0; card_len(level(300)?, OPTIMAL)];
/// start_ticks(AES, 300, OPTIMAL, &[7; VALUE_LEN], &mut card)?;
/// assert!(matches!(round(&mut card, &mut [0; VALUE_LEN])?, Round::Tick { position: 299, .. }));
/// # Ok::<(), perchmellow::Refusal>(())
/// ```
///
/// # Errors
///
/// The first that applies of
/// - [`Refusal::UnknownFunction`],
/// - [`Refusal::UnknownSchedule`],
/// - [`Refusal::BadTicks`] and
/// - [`Refusal::WrongLength`]: the seed is not of 16 bytes, or the record is too short.
pub fn start_ticks(function: u32, ticks: u32, schedule: u32, seed: &[u8], record: &mut [u8]) -> Result<(), Refusal> {
    let word =
        unsafe { raw::perchmellow_start_ticks(function, ticks, schedule, seed.as_ptr(), seed.len(), record.as_mut_ptr(), record.len()) };
    Word(word).check().map(|_| ())
}

/// Writes the record of a card of 2^k ticks before a round, from 1 to 2^(k+1), to the front of `record`: the bytes that a start and the
/// rounds before it leave there. It does as many hashes as the highest position that is held. A card of n ticks of which p are paid goes
/// on at round 2^(k+1) - n + p, k being its [`level`].
///
/// ```
/// use perchmellow::{card_len, rebuild, round, start, MD5, OPTIMAL, VALUE_LEN};
///
/// let (k, seed) = (4, [7; VALUE_LEN]);
/// let mut card = vec![0; card_len(k, OPTIMAL)];
/// let mut lost = card.clone();
/// start(MD5, k, OPTIMAL, &seed, &mut lost)?;
/// for _ in 1..20 {
///     round(&mut lost, &mut [0; VALUE_LEN])?;
/// }
/// rebuild(MD5, k, OPTIMAL, 20, &seed, &mut card)?;
/// assert_eq!(card, lost);
/// # Ok::<(), perchmellow::Refusal>(())
/// ```
///
/// # Errors
///
/// The first that applies of
/// - [`Refusal::UnknownFunction`],
/// - [`Refusal::TooManyTicks`],
/// - [`Refusal::UnknownSchedule`],
/// - [`Refusal::BadRecord`]: the round is not from 1 to 2^(k+1), and
/// - [`Refusal::WrongLength`]: the seed is not of 16 bytes, or the record is too short.
pub fn rebuild(function: u32, k: u32, schedule: u32, round: u32, seed: &[u8], record: &mut [u8]) -> Result<(), Refusal> {
    let word =
        unsafe { raw::perchmellow_rebuild(function, k, schedule, round, seed.as_ptr(), seed.len(), record.as_mut_ptr(), record.len()) };
    Word(word).check().map(|_| ())
}

/// Runs one round of the card. A tick goes to the front of `out`; a quiet round leaves it alone.
///
/// # Errors
///
/// The first that applies of
/// - [`Refusal::WrongLength`]: the record has under 16 bytes,
/// - [`Refusal::BadRecord`]: its mark is another, or a byte that is always zero is not,
/// - [`Refusal::UnknownFunction`],
/// - [`Refusal::TooManyTicks`],
/// - [`Refusal::UnknownSchedule`],
/// - [`Refusal::WrongLength`]: the record is shorter than its k and schedule ask,
/// - [`Refusal::BadRecord`]: its round is out of range, or a free slot is not zero,
/// - [`Refusal::Spent`],
/// - [`Refusal::WrongLength`]: the out buffer has under 16 bytes, in a quiet round too, and
/// - [`Refusal::NoRoom`], which is proved never to come.
pub fn round(record: &mut [u8], out: &mut [u8]) -> Result<Round, Refusal> {
    let word = Word(unsafe { raw::perchmellow_round(record.as_mut_ptr(), record.len(), out.as_mut_ptr(), out.len()) }).check()?;
    let (position, hashes) = (word.first(), word.second());
    Ok(if word.kind() { Round::Tick { position, hashes } } else { Round::Quiet { hashes } })
}

/// Writes the positions that a card holds before a round to the front of `list`, in falling order.
///
/// # Errors
///
/// The first that applies of
/// - [`Refusal::TooManyTicks`],
/// - [`Refusal::UnknownSchedule`],
/// - [`Refusal::BadRecord`]: the round is not from 1 to 2^(k+1), and
/// - [`Refusal::WrongLength`]: the list has fewer entries than there are positions.
pub fn positions(k: u32, schedule: u32, round: u32, list: &mut [u32]) -> Result<Listed, Refusal> {
    let word = Word(unsafe { raw::perchmellow_positions(k, schedule, round, list.as_mut_ptr(), list.len()) }).check()?;
    Ok(Listed { held: word.first(), hashes: word.second() })
}

/// Writes the anchor of a card of 2^k ticks to the front of `out`.
///
/// # Errors
///
/// The first that applies of
/// - [`Refusal::UnknownFunction`],
/// - [`Refusal::TooManyTicks`] and
/// - [`Refusal::WrongLength`]: the seed is not of 16 bytes, or the out buffer has fewer.
pub fn anchor(function: u32, k: u32, seed: &[u8], out: &mut [u8]) -> Result<(), Refusal> {
    let word = unsafe { raw::perchmellow_anchor(function, k, seed.as_ptr(), seed.len(), out.as_mut_ptr(), out.len()) };
    Word(word).check().map(|_| ())
}

/// Writes the anchor of a card of so many ticks to the front of `out`. A post is enrolled with it and the card's [`level`].
///
/// ```
/// use perchmellow::{anchor, anchor_ticks, MD5, VALUE_LEN};
///
/// let (seed, mut by_k, mut by_ticks) = ([7; VALUE_LEN], [0; VALUE_LEN], [0; VALUE_LEN]);
/// anchor(MD5, 4, &seed, &mut by_k)?;
/// anchor_ticks(MD5, 16, &seed, &mut by_ticks)?;
/// assert_eq!(by_k, by_ticks);
/// # Ok::<(), perchmellow::Refusal>(())
/// ```
///
/// # Errors
///
/// The first that applies of
/// - [`Refusal::UnknownFunction`],
/// - [`Refusal::BadTicks`] and
/// - [`Refusal::WrongLength`]: the seed is not of 16 bytes, or the out buffer has fewer.
pub fn anchor_ticks(function: u32, ticks: u32, seed: &[u8], out: &mut [u8]) -> Result<(), Refusal> {
    let word = unsafe { raw::perchmellow_anchor_ticks(function, ticks, seed.as_ptr(), seed.len(), out.as_mut_ptr(), out.len()) };
    Word(word).check().map(|_| ())
}

/// Writes the record of a post that has taken nothing yet to the front of `record`.
///
/// # Errors
///
/// The first that applies of
/// - [`Refusal::UnknownFunction`],
/// - [`Refusal::TooManyTicks`] and
/// - [`Refusal::WrongLength`]: the anchor is not of 16 bytes, or the record has under [`POST_LEN`].
pub fn enrol(function: u32, k: u32, anchor: &[u8], record: &mut [u8]) -> Result<(), Refusal> {
    let word = unsafe { raw::perchmellow_enrol(function, k, anchor.as_ptr(), anchor.len(), record.as_mut_ptr(), record.len()) };
    Word(word).check().map(|_| ())
}

/// Offers a value to a post, and answers the ticks credited.
///
/// # Errors
///
/// The first that applies of
/// - [`Refusal::WrongLength`]: the record has under [`POST_LEN`] bytes,
/// - [`Refusal::BadRecord`]: its mark is another,
/// - [`Refusal::UnknownFunction`],
/// - [`Refusal::TooManyTicks`],
/// - [`Refusal::BadRecord`]: more are paid than 2^k, or none is and the value held is not the anchor,
/// - [`Refusal::BadGap`],
/// - [`Refusal::Spent`],
/// - [`Refusal::WrongLength`]: the value is not of 16 bytes, and
/// - [`Refusal::NotTaken`].
pub fn offer(record: &mut [u8], value: &[u8], gap: u32) -> Result<u32, Refusal> {
    let word = unsafe { raw::perchmellow_offer(record.as_mut_ptr(), record.len(), value.as_ptr(), value.len(), gap) };
    Word(word).check().map(|word| word.first())
}

/// Whether as many steps as are paid lead from the last value to the anchor.
///
/// # Errors
///
/// The first that applies of
/// - [`Refusal::UnknownFunction`],
/// - [`Refusal::TooManyTicks`],
/// - [`Refusal::WrongLength`]: the anchor or the last value is not of 16 bytes, and
/// - [`Refusal::BadRecord`]: more are paid than 2^k.
pub fn settle(function: u32, k: u32, anchor: &[u8], last: &[u8], paid: u32) -> Result<bool, Refusal> {
    let word = unsafe { raw::perchmellow_settle(function, k, anchor.as_ptr(), anchor.len(), last.as_ptr(), last.len(), paid) };
    Word(word).check().map(|word| word.kind())
}
