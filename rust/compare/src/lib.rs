//! The proved library and plain Rust side by side. [`Calls`] is one of them, and [`both`] makes a call of the two and sees that they
//! agree; the tests and the benchmark are written over these.

pub mod both;
mod cases;
mod random;

pub use cases::cases;
pub use random::Random;

/// What a round answered: the position of the tick that it put out, if any, and its hashes.
#[derive(Clone, Copy, Debug, PartialEq, Eq)]
pub struct Turn {
    pub position: Option<u32>,
    pub hashes: u32,
}

/// What a position list answered.
#[derive(Clone, Copy, Debug, PartialEq, Eq)]
pub struct Listed {
    pub held: u32,
    pub hashes: u32,
}

/// The ten calls. A refusal is its number.
pub trait Calls: Sync {
    fn name(&self) -> &'static str;
    fn start(&self, function: u32, k: u32, schedule: u32, seed: &[u8], record: &mut [u8]) -> Result<(), u8>;
    fn start_ticks(&self, function: u32, ticks: u32, schedule: u32, seed: &[u8], record: &mut [u8]) -> Result<(), u8>;
    fn rebuild(&self, function: u32, k: u32, schedule: u32, round: u32, seed: &[u8], record: &mut [u8]) -> Result<(), u8>;
    fn round(&self, record: &mut [u8], out: &mut [u8]) -> Result<Turn, u8>;
    fn positions(&self, k: u32, schedule: u32, round: u32, list: &mut [u32]) -> Result<Listed, u8>;
    fn anchor(&self, function: u32, k: u32, seed: &[u8], out: &mut [u8]) -> Result<(), u8>;
    fn anchor_ticks(&self, function: u32, ticks: u32, seed: &[u8], out: &mut [u8]) -> Result<(), u8>;
    fn enrol(&self, function: u32, k: u32, anchor: &[u8], record: &mut [u8]) -> Result<(), u8>;
    fn offer(&self, record: &mut [u8], value: &[u8], gap: u32) -> Result<u32, u8>;
    fn settle(&self, function: u32, k: u32, anchor: &[u8], last: &[u8], paid: u32) -> Result<bool, u8>;
}

pub struct Proved;
pub struct Plain;
/// Plain Rust whose AES keeps to bytes and the S-box.
pub struct PlainOnBytes;

macro_rules! calls_of {
    ($who:ident, $name:literal, $of:ident) => {
        impl Calls for $who {
            fn name(&self) -> &'static str {
                $name
            }

            fn start(&self, function: u32, k: u32, schedule: u32, seed: &[u8], record: &mut [u8]) -> Result<(), u8> {
                $of::start(function, k, schedule, seed, record).map_err($of::Refusal::number)
            }

            fn start_ticks(&self, function: u32, ticks: u32, schedule: u32, seed: &[u8], record: &mut [u8]) -> Result<(), u8> {
                $of::start_ticks(function, ticks, schedule, seed, record).map_err($of::Refusal::number)
            }

            fn rebuild(&self, function: u32, k: u32, schedule: u32, round: u32, seed: &[u8], record: &mut [u8]) -> Result<(), u8> {
                $of::rebuild(function, k, schedule, round, seed, record).map_err($of::Refusal::number)
            }

            fn round(&self, record: &mut [u8], out: &mut [u8]) -> Result<Turn, u8> {
                match $of::round(record, out) {
                    Ok($of::Round::Quiet { hashes }) => Ok(Turn { position: None, hashes }),
                    Ok($of::Round::Tick { position, hashes }) => Ok(Turn { position: Some(position), hashes }),
                    Err(why) => Err(why.number()),
                }
            }

            fn positions(&self, k: u32, schedule: u32, round: u32, list: &mut [u32]) -> Result<Listed, u8> {
                match $of::positions(k, schedule, round, list) {
                    Ok($of::Listed { held, hashes }) => Ok(Listed { held, hashes }),
                    Err(why) => Err(why.number()),
                }
            }

            fn anchor(&self, function: u32, k: u32, seed: &[u8], out: &mut [u8]) -> Result<(), u8> {
                $of::anchor(function, k, seed, out).map_err($of::Refusal::number)
            }

            fn anchor_ticks(&self, function: u32, ticks: u32, seed: &[u8], out: &mut [u8]) -> Result<(), u8> {
                $of::anchor_ticks(function, ticks, seed, out).map_err($of::Refusal::number)
            }

            fn enrol(&self, function: u32, k: u32, anchor: &[u8], record: &mut [u8]) -> Result<(), u8> {
                $of::enrol(function, k, anchor, record).map_err($of::Refusal::number)
            }

            fn offer(&self, record: &mut [u8], value: &[u8], gap: u32) -> Result<u32, u8> {
                $of::offer(record, value, gap).map_err($of::Refusal::number)
            }

            fn settle(&self, function: u32, k: u32, anchor: &[u8], last: &[u8], paid: u32) -> Result<bool, u8> {
                $of::settle(function, k, anchor, last, paid).map_err($of::Refusal::number)
            }
        }
    };
}

calls_of!(Proved, "proved", perchmellow);
calls_of!(Plain, "plain", plain);
calls_of!(PlainOnBytes, "plain on bytes", plain_on_bytes);
