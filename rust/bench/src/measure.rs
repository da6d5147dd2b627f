//! What is timed. Each measure runs the two in turns, and takes the ratio of each pair.

use std::hint::black_box;

use compare::{Calls, Plain, PlainOnBytes, Proved};
use perchmellow::{card_len, CARD_HEAD_LEN, OPTIMAL, POSITIONS_MOST, POST_LEN};

use crate::clock::time;

pub const FUNCTIONS: [(u32, &str); 2] = [(0, "MD5"), (1, "AES")];

/// The functions beside plain Rust, and AES once more beside plain Rust that keeps to bytes.
pub const BESIDE: [(u32, &str, &dyn Calls); 3] = [(0, "MD5", &Plain), (1, "AES", &Plain), (1, "AES, plain on bytes", &PlainOnBytes)];

const SEED: [u8; 16] = *b"a seed for bench";

/// Median, least and greatest of some figures.
pub struct Figures {
    pub median: f64,
    least: f64,
    greatest: f64,
}

impl Figures {
    fn of(mut all: Vec<f64>) -> Figures {
        all.sort_by(f64::total_cmp);
        Figures { median: all[all.len() / 2], least: all[0], greatest: all[all.len() - 1] }
    }

    pub fn shown(&self, unit: f64, places: usize) -> String {
        format!("{:.places$} ({:.places$}-{:.places$})", self.median * unit, self.least * unit, self.greatest * unit)
    }
}

/// Figures of the two, and their ratio.
pub struct Spread {
    pub proved: Figures,
    pub plain: Figures,
    pub ratio: Figures,
}

/// Figures that each of the two says, so many times in turns, after one turn that does not count.
fn pairs<const N: usize>(times: usize, proved: impl Fn() -> [f64; N], plain: impl Fn() -> [f64; N]) -> [Spread; N] {
    let mut said = vec![];
    for turn in 0..=times {
        let pair = if turn % 2 == 0 {
            let first = proved();
            (first, plain())
        } else {
            let first = plain();
            (proved(), first)
        };
        if turn > 0 {
            said.push(pair);
        }
    }
    std::array::from_fn(|i| {
        let figures = |of: fn(f64, f64) -> f64| Figures::of(said.iter().map(|(proved, plain)| of(proved[i], plain[i])).collect());
        Spread { proved: figures(|proved, _| proved), plain: figures(|_, plain| plain), ratio: figures(|proved, plain| proved / plain) }
    })
}

/// The same measure of the proved code and another.
fn in_turns<const N: usize>(times: usize, plain: &dyn Calls, measure: impl Fn(&dyn Calls) -> [f64; N]) -> [Spread; N] {
    pairs(times, || measure(black_box(&Proved)), || measure(black_box(plain)))
}

fn start(calls: &dyn Calls, function: u32, k: u32) -> Vec<u8> {
    let mut record = vec![0; card_len(k, OPTIMAL)];
    calls.start(function, k, OPTIMAL, black_box(&SEED), &mut record).expect("a card can be started");
    record
}

/// Runs so many rounds, and answers their hashes.
fn run(calls: &dyn Calls, record: &mut [u8], rounds: u32, out: &mut [u8]) -> u64 {
    let mut hashes = 0;
    for _ in 0..rounds {
        let turn = calls.round(black_box(&mut *record), black_box(&mut *out)).expect("the card has rounds left");
        hashes += u64::from(turn.hashes);
    }
    hashes
}

/// Start and all rounds at k = 16.
pub fn whole_runs(function: u32, plain: &dyn Calls) -> Spread {
    let k = 16;
    let [spread] = in_turns(15, plain, |calls| {
        let (mut hashes, mut out) = (0, [0; 16]);
        let seconds = time(|| {
            let mut record = start(calls, function, k);
            hashes = run(calls, &mut record, (2 << k) - 1, &mut out);
        });
        assert_eq!((hashes, out), (16 << 15, SEED), "{}: the card ran whole", calls.name());
        [seconds]
    });
    spread
}

/// A rebuild in the middle of a card of k = 16, where 2^15 ticks are left.
pub fn rebuilds(function: u32, plain: &dyn Calls) -> Spread {
    let (k, round) = (16, (2 << 16) - (1 << 15));
    let mut wanted = vec![0; card_len(k, OPTIMAL)];
    Plain.rebuild(function, k, OPTIMAL, round, &SEED, &mut wanted).expect("a card can be rebuilt");
    let [spread] = in_turns(15, plain, |calls| {
        let mut record = vec![0; card_len(k, OPTIMAL)];
        let seconds = time(|| {
            let answer = calls.rebuild(function, k, OPTIMAL, black_box(round), black_box(&SEED), &mut record);
            answer.expect("a card can be rebuilt");
        });
        assert_eq!(record, wanted, "{}: the card is rebuilt", calls.name());
        [seconds]
    });
    spread
}

/// One hash, by a chain of 2^20.
pub fn hash(function: u32, plain: &dyn Calls) -> Spread {
    let [spread] = in_turns(7, plain, |calls| [hash_by_anchors(calls, function, 20)]);
    spread
}

/// One hash: an anchor at k less one at 0, through the hashes that they differ by.
fn hash_by_anchors(calls: &dyn Calls, function: u32, k: u32) -> f64 {
    let anchor = |k| {
        let mut out = [0; 16];
        calls.anchor(function, k, black_box(&SEED), black_box(&mut out)).expect("an anchor can be had");
        black_box(out);
    };
    let beside = time(|| (0..1000).for_each(|_| anchor(0))) / 1000.0;
    (time(|| anchor(k)) - beside) / f64::from((1 << k) - 1)
}

/// One offer at G = 64: of a value that is 64 steps from the one held, or one that does not lead there.
pub fn offer(function: u32, fits: bool) -> Spread {
    const OFFERS: u32 = 1000;
    let mut held = [0; 16];
    Proved.anchor(function, 6, &SEED, &mut held).expect("an anchor can be had");
    let mut post = [0; POST_LEN];
    Proved.enrol(function, 20, if fits { &held } else { &[1; 16] }, &mut post).expect("a post can be enrolled");
    let wanted = if fits { Ok(64) } else { Err(9) };
    let [spread] = in_turns(15, &Plain, |calls| {
        let seconds = time(|| {
            for _ in 0..OFFERS {
                let mut record = post;
                let answer = calls.offer(black_box(&mut record), black_box(&SEED), black_box(64));
                assert_eq!(answer, wanted);
            }
        });
        [seconds / f64::from(OFFERS)]
    });
    spread
}

/// The first 2^20 elements of the bench's chain. Cards of every k hold elements of it.
pub fn chain(function: u32) -> Vec<[u8; 16]> {
    let mut chain = vec![SEED; 1 << 20];
    for i in 1..chain.len() {
        let (before, at) = chain.split_at_mut(i);
        Plain.anchor(function, 0, &before[i - 1], &mut at[0]).expect("a known function");
    }
    chain
}

/// A card's record before a round, as start and all rounds up to there leave it.
fn record_at(function: u32, k: u32, round: u32, chain: &[[u8; 16]]) -> Vec<u8> {
    let mut record = start(&Proved, function, k);
    let mut list = [0; POSITIONS_MOST];
    let held = Proved.positions(k, OPTIMAL, round, &mut list).expect("the card has this round").held as usize;
    record[8..12].copy_from_slice(&round.to_le_bytes());
    for (slot, position) in record[CARD_HEAD_LEN..].as_chunks_mut().0.iter_mut().zip(&list[..held]) {
        *slot = chain[*position as usize];
    }
    record
}

/// A paying round: its hashes, its time, and its time less that of its hashes.
pub struct Paying {
    pub hashes: f64,
    pub each: Spread,
    pub beside: Spread,
}

/// Up to k = 16 the mean is over all paying rounds, else over 16 stretches of 6250, spread over the card by the golden section.
pub fn paying_rounds(function: u32, k: u32, chain: &[[u8; 16]]) -> Paying {
    let ticks = 1u32 << k;
    let (rounds, from): (u32, Vec<u32>) = if k <= 16 {
        (ticks, vec![ticks; 20_000_u32.div_ceil(ticks) as usize])
    } else {
        let spread = |i: u32| (i.wrapping_mul(0x9e37_79b1) >> (32 - k)).min(ticks - 6250);
        (6250, (0..16).map(|i| ticks + spread(i)).collect())
    };
    let records: Vec<Vec<u8>> = from.iter().map(|round| record_at(function, k, *round, chain)).collect();
    let all = f64::from(rounds) * records.len() as f64;
    let run_all = |calls: &dyn Calls, records: &mut [Vec<u8>]| -> u64 {
        let mut out = [0; 16];
        records.iter_mut().map(|record| run(calls, record, rounds, &mut out)).sum()
    };
    let hashes = run_all(&Proved, &mut records.clone()) as f64 / all;
    // a hash is timed anew beside each run, since the processor's pace changes
    let [each, beside] = in_turns(7, &Plain, |calls| {
        let mut records = records.clone();
        let hash = hash_by_anchors(calls, function, 14);
        let seconds = time(|| {
            run_all(calls, &mut records);
        });
        [seconds / all, seconds / all - hashes * hash]
    });
    Paying { hashes, each, beside }
}
