//! A card and a post in plain Rust, written from docs/RULES.md and without a proof: the measure for the proved library, in its answers
//! and in its speed. The calls have the names and the arguments of the crate `perchmellow`, and nothing else of it.
//!
//! Safe code and std only, for any processor: no intrinsics, so no AES instructions.

#![forbid(unsafe_code)]

#[cfg_attr(feature = "on_bytes", path = "aes_on_bytes.rs")]
mod aes;
mod card;
mod function;
mod md5;
mod pebbles;
mod post;

pub use card::{anchor, anchor_ticks, card_len, level, positions, rebuild, round, slots, start, start_ticks, Listed, Round};
pub use post::{enrol, offer, settle};

/// Bytes in a value: a seed, an anchor or a tick.
pub const VALUE_LEN: usize = 16;
/// Bytes in a post record.
pub const POST_LEN: usize = 40;
/// The greatest k.
pub const K_MOST: u32 = 20;
/// The most ticks that a card can have.
pub const TICKS_MOST: u32 = 1 << K_MOST;
/// The greatest gap limit.
pub const GAP_MOST: u32 = 64;

/// An element of a chain.
type Value = [u8; VALUE_LEN];

/// Why a call did nothing: the number said at the counter.
#[derive(Clone, Copy, Debug, PartialEq, Eq)]
#[repr(u8)]
pub enum Refusal {
    UnknownFunction = 1,
    TooManyTicks = 2,
    UnknownSchedule = 3,
    WrongLength = 4,
    BadRecord = 5,
    Spent = 6,
    BadGap = 7,
    NoRoom = 8,
    NotTaken = 9,
    BadTicks = 10,
}

impl Refusal {
    pub const fn number(self) -> u8 {
        self as u8
    }
}

/// Refusal 2.
fn check_k(k: u32) -> Result<(), Refusal> {
    if k > K_MOST {
        return Err(Refusal::TooManyTicks);
    }
    Ok(())
}

/// A lent value, or refusal 4.
fn value(bytes: &[u8]) -> Result<&Value, Refusal> {
    bytes.try_into().map_err(|_| Refusal::WrongLength)
}

/// The front of a lent buffer, or refusal 4.
fn front<const N: usize>(buffer: &mut [u8]) -> Result<&mut [u8; N], Refusal> {
    buffer.first_chunk_mut().ok_or(Refusal::WrongLength)
}
