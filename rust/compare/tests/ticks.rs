//! Rebuilds beside cards that were run, cards of any number of ticks to their end, and every edge of the numbers that these calls take,
//! with several refusals earned at once.

use compare::{both, Random, Turn};
use perchmellow::{card_len, level, slots, AES, MD5, POST_LEN, TICKS_MOST};

const SEED: u64 = 0x7065_7263_6831;

#[test]
fn rebuilds() {
    for function in [MD5, AES] {
        for schedule in 0..=3 {
            for k in 0..=6 {
                rebuilt_at_every_round(function, schedule, k);
            }
        }
    }
}

/// Two buffers of one content: a card runs in one of them, and is rebuilt in the other before each round.
fn rebuilt_at_every_round(function: u32, schedule: u32, k: u32) {
    let mut random = Random::new(SEED ^ u64::from(function << 16 | schedule << 8 | k));
    let (seed, lent) = (random.value(), random.buffer(card_len(k, schedule), 40));
    let mut ran = lent.clone();
    both::start(function, k, schedule, &seed, &mut ran).unwrap();
    for round in 1..=2 << k {
        let mut rebuilt = lent.clone();
        both::rebuild(function, k, schedule, round, &seed, &mut rebuilt).unwrap();
        assert_eq!(rebuilt, ran, "function {function}, schedule {schedule}, k {k}, round {round}");
        let turn = both::round(&mut ran, &mut [0; 16]);
        assert_eq!(turn.is_err(), round == 2 << k);
    }
}

#[test]
fn whole_cards() {
    for function in [MD5, AES] {
        for schedule in 0..=3 {
            for ticks in [1, 2, 3, 5, 300] {
                whole_card(function, schedule, ticks);
            }
        }
    }
}

/// Every round pays, the last tick is the seed, and the post is not paid in full where the level has more ticks than the card.
fn whole_card(function: u32, schedule: u32, ticks: u32) {
    let told = format!("function {function}, schedule {schedule}, {ticks} ticks");
    let mut random = Random::new(SEED ^ u64::from(function << 20 | schedule << 16 | ticks));
    let (k, seed) = (level(ticks).unwrap(), random.value());
    let (mut card, mut post) = (random.buffer(card_len(k, schedule), 40), random.buffer(POST_LEN, 20));
    let (mut anchor, mut tick) = ([0; 16], [0; 16]);
    both::start_ticks(function, ticks, schedule, &seed, &mut card).unwrap();
    both::anchor_ticks(function, ticks, &seed, &mut anchor).unwrap();
    both::enrol(function, k, &anchor, &mut post).unwrap();
    for left in (0..ticks).rev() {
        let hashes = both::positions(k, schedule, (2 << k) - left - 1, &mut [0; 41]).unwrap().hashes;
        assert_eq!(both::round(&mut card, &mut tick), Ok(Turn { position: Some(left), hashes }), "{told}");
        assert_eq!(both::offer(&mut post, &tick, 1), Ok(1), "{told}, tick {left}");
    }
    assert_eq!((both::round(&mut card, &mut [0; 16]), tick), (Err(6), seed), "{told}");
    assert_eq!(post[4..8], ticks.to_le_bytes());
    assert_eq!(both::offer(&mut post, &tick, 64), Err(if ticks == 1 << k { 6 } else { 9 }), "{told}");
    assert_eq!(both::settle(function, k, &anchor, &tick, ticks), Ok(true), "{told}");
}

/// A whole level, by its k and by its ticks.
#[test]
fn whole_levels() {
    for k in 0..=12 {
        let seed = Random::new(SEED ^ u64::from(k)).value();
        let [mut by_k, mut by_ticks] = [[0; 16]; 2];
        both::anchor(AES, k, &seed, &mut by_k).unwrap();
        both::anchor_ticks(AES, 1 << k, &seed, &mut by_ticks).unwrap();
        assert_eq!(by_k, by_ticks);
        let [mut by_k, mut by_ticks] = [[0; 700]; 2];
        both::rebuild(AES, k, 1, 1 << k, &seed, &mut by_k).unwrap();
        both::start_ticks(AES, 1 << k, 1, &seed, &mut by_ticks).unwrap();
        assert_eq!(by_k, by_ticks);
    }
}

const FUNCTIONS: [u32; 6] = [0, 1, 2, 256, 1 << 31, u32::MAX];
const SCHEDULES: [u32; 7] = [0, 1, 2, 3, 4, 256, u32::MAX];
/// What a seed's length, and an out buffer's, may be.
const LENGTHS: [usize; 5] = [0, 15, 16, 17, 40];

/// Rounds, or ticks, on both sides of every edge of a card of 2^k ticks.
fn edges(k: u32) -> Vec<u32> {
    let ticks = 1 << k.min(20);
    let mut edges =
        vec![0, 1, ticks - 1, ticks, ticks + 1, 2 * ticks - 1, 2 * ticks, 2 * ticks + 1, 1 << 20, (1 << 20) + 1, 1 << 31, u32::MAX];
    edges.sort();
    edges.dedup();
    edges
}

/// Records too short, just long enough and longer, for so many slots.
fn lengths(slots: usize) -> [usize; 6] {
    let len = 16 + 16 * slots;
    [0, 15, 16, len - 1, len, len + 9]
}

/// The first refusal in the order of the tests, or none.
fn first(tests: &[(bool, u8)]) -> Result<(), u8> {
    tests.iter().find(|(good, _)| !good).map_or(Ok(()), |(_, number)| Err(*number))
}

#[test]
fn edges_of_a_rebuild() {
    let mut random = Random::new(SEED);
    for k in [0, 1, 4, 20, 21, 31, 32, u32::MAX] {
        for (function, schedule) in pairs(&FUNCTIONS, &SCHEDULES) {
            for round in edges(k) {
                for (seed_len, len) in pairs(&LENGTHS, &lengths(slots(k.min(21), schedule))) {
                    let long = k == 20 && seed_len == 16 && (1 << 19..2 << 20).contains(&round);
                    if long && len != card_len(k, schedule.min(3)) {
                        continue;
                    }
                    let wanted = first(&[
                        (function < 2, 1),
                        (k <= 20, 2),
                        (schedule < 4, 3),
                        ((1..=2 << k.min(20)).contains(&round), 5),
                        (seed_len == 16 && len >= card_len(k.min(20), schedule), 4),
                    ]);
                    let answer = both::rebuild(function, k, schedule, round, &random.bytes(seed_len), &mut random.bytes(len));
                    assert_eq!(answer, wanted, "rebuild({function}, {k}, {schedule}, {round}), seed of {seed_len}, record of {len}");
                }
            }
        }
    }
}

#[test]
fn edges_of_a_start_by_ticks() {
    let mut random = Random::new(SEED);
    for ticks in [edges(1), edges(4), edges(20), vec![300]].concat() {
        for (function, schedule) in pairs(&FUNCTIONS, &SCHEDULES) {
            for (seed_len, len) in pairs(&LENGTHS, &lengths(slots(level(ticks).unwrap_or(20), schedule))) {
                let wanted = first(&[
                    (function < 2, 1),
                    (schedule < 4, 3),
                    ((1..=TICKS_MOST).contains(&ticks), 10),
                    (seed_len == 16 && len >= card_len(level(ticks).unwrap_or(20), schedule), 4),
                ]);
                let long = ticks > 1 << 16 && len != card_len(20, schedule);
                if long && wanted.is_ok() {
                    continue;
                }
                let answer = both::start_ticks(function, ticks, schedule, &random.bytes(seed_len), &mut random.bytes(len));
                assert_eq!(answer, wanted, "start_ticks({function}, {ticks}, {schedule}), seed of {seed_len}, record of {len}");
            }
        }
    }
}

#[test]
fn edges_of_an_anchor_by_ticks() {
    let mut random = Random::new(SEED);
    for ticks in [edges(1), edges(4), edges(20), vec![300]].concat() {
        for function in FUNCTIONS {
            for (seed_len, len) in pairs(&LENGTHS, &LENGTHS) {
                let good = (1..=TICKS_MOST).contains(&ticks);
                let wanted = first(&[(function < 2, 1), (good, 10), (seed_len == 16 && len >= 16, 4)]);
                let answer = both::anchor_ticks(function, ticks, &random.bytes(seed_len), &mut random.bytes(len));
                assert_eq!(answer, wanted, "anchor_ticks({function}, {ticks}), seed of {seed_len}, out buffer of {len}");
            }
        }
    }
}

fn pairs<A: Copy, B: Copy>(some: &[A], others: &[B]) -> Vec<(A, B)> {
    some.iter().flat_map(|a| others.iter().map(|b| (*a, *b))).collect()
}
