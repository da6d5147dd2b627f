//! Random, damaged, short and long inputs for the card's calls.

use compare::{both, cases, Calls, Plain, Random};
use perchmellow::{card_len, level, TICKS_MOST};

/// The most hashes that a case may ask for, but for a few.
const WORK: u32 = 2000;

#[test]
fn start() {
    cases("start", 0x7065_7263_6811, &["started"], &[1, 2, 3, 4], |random| {
        let (function, k, schedule) = (random.function(), random.k(), random.schedule());
        let seed = random.taken();
        let mut record = random.lent(card_len(k.min(21), schedule));
        both::start(function, k, schedule, &seed, &mut record).map(|()| "started")
    });
}

#[test]
fn start_ticks() {
    cases("start_ticks", 0x7065_7263_6815, &["started"], &[1, 3, 4, 10], |random| {
        let (function, mut ticks, schedule) = (random.function(), random.ticks(), random.schedule());
        if (WORK..=TICKS_MOST).contains(&ticks) && !random.once_in(3000) {
            ticks %= WORK;
        }
        let seed = random.taken();
        let mut record = random.lent(card_len(level(ticks).unwrap_or(20), schedule));
        both::start_ticks(function, ticks, schedule, &seed, &mut record).map(|()| "started")
    });
}

#[test]
fn rebuild() {
    cases("rebuild", 0x7065_7263_6816, &["rebuilt", "spent"], &[1, 2, 3, 4, 5], |random| {
        let (function, k, schedule) = (random.function(), random.k(), random.schedule());
        let mut round = any_round(random, k.min(21), schedule);
        if highest(k, schedule, round) > WORK && !random.once_in(3000) {
            round = (2 << k) - random.within(0, WORK);
        }
        let seed = random.taken();
        let mut record = random.lent(card_len(k.min(21), schedule));
        let spent = held(k, schedule, round) == 0;
        both::rebuild(function, k, schedule, round, &seed, &mut record).map(|()| if spent { "spent" } else { "rebuilt" })
    });
}

#[test]
fn anchor_ticks() {
    cases("anchor_ticks", 0x7065_7263_6817, &["put out"], &[1, 4, 10], |random| {
        let (function, mut ticks, seed, mut out) = (random.function(), random.ticks(), random.taken(), random.lent(16));
        if (WORK..=TICKS_MOST).contains(&ticks) && !random.once_in(3000) {
            ticks %= WORK;
        }
        both::anchor_ticks(function, ticks, &seed, &mut out).map(|()| "put out")
    });
}

#[test]
fn anchor() {
    cases("anchor", 0x7065_7263_6812, &["put out"], &[1, 2, 4], |random| {
        let (function, mut k, seed, mut out) = (random.function(), random.k(), random.taken(), random.lent(16));
        let works = function < 2 && seed.len() == 16 && out.len() >= 16;
        if works && 1 << k.min(20) > WORK && k <= 20 && !random.once_in(3000) {
            k %= 11;
        }
        both::anchor(function, k, &seed, &mut out).map(|()| "put out")
    });
}

#[test]
fn positions() {
    cases("positions", 0x7065_7263_6813, &["some", "none"], &[2, 3, 4, 5], |random| {
        let (k, schedule) = (random.k(), random.schedule());
        let round = any_round(random, k.min(21), schedule);
        let held = held(k, schedule, round) as u32;
        let len = match random.below(12) {
            0 => held.saturating_sub(1),
            1 => random.within(0, held),
            2..6 => held,
            _ => held + random.below(20),
        };
        let mut list: Vec<u32> = (0..len).map(|_| random.number() as u32).collect();
        both::positions(k, schedule, round, &mut list).map(|listed| if listed.held > 0 { "some" } else { "none" })
    });
}

#[test]
fn round() {
    cases("round", 0x7065_7263_6814, &["quiet", "tick"], &[1, 2, 3, 4, 5, 6], |random| {
        let mut record = if random.once_in(60) { random.buffer(0, 120) } else { card(random) };
        let mut out = random.lent(16);
        damage(random, &mut record);
        if work(&record) > WORK && !random.once_in(3000) {
            record[4] = 3;
        }
        both::round(&mut record, &mut out).map(|turn| if turn.position.is_some() { "tick" } else { "quiet" })
    });
}

/// Rounds about the edges of a card of 2^k ticks, rounds in between, and some that it has not.
fn any_round(random: &mut Random, k: u32, schedule: u32) -> u32 {
    let ticks = 1u32 << k;
    let round = match random.below(16) {
        0 => random.within(0, 2),
        1 => 2 * ticks,
        2 => 2 * ticks - random.within(0, 2),
        3 => 2 * ticks + random.within(0, 2),
        4 => (ticks - 1 + random.below(3)) % (2 * ticks),
        5 => match random.below(4) {
            0 => u32::MAX,
            1 => 1 << 31,
            2 => 1 << 22,
            _ => random.number() as u32,
        },
        6 => ticks + (ticks >> random.within(0, 3)) - 1,
        _ => random.within(1, 2 * ticks),
    };
    let heavy = Plain.positions(k, schedule, round, &mut [0; 41]).is_ok_and(|listed| listed.hashes > WORK);
    if heavy && !random.once_in(3000) {
        return random.within(1, ticks.div_ceil(2));
    }
    round
}

/// How many values a card holds before the round; 0 where it has no such round.
fn held(k: u32, schedule: u32, round: u32) -> usize {
    Plain.positions(k, schedule, round, &mut [0; 41]).map_or(0, |listed| listed.held as usize)
}

/// The highest position that a card holds before the round; 0 where it has no such round.
fn highest(k: u32, schedule: u32, round: u32) -> u32 {
    let mut list = [0; 41];
    let _ = Plain.positions(k, schedule, round, &mut list);
    list[0]
}

/// A record as it should be, but of any values, with more bytes behind it or without.
fn card(random: &mut Random) -> Vec<u8> {
    let (k, schedule) = (random.within(0, 20), random.below(4));
    let round = any_round(random, k, schedule);
    let mut record = vec![0xb7, 1, random.below(2) as u8, schedule as u8, k as u8, 0, 0, 0];
    record.extend(u64::from(round).to_le_bytes());
    for _ in 0..held(k, schedule, round) {
        record.extend(random.value());
    }
    record.resize(card_len(k, schedule), 0);
    if random.once_in(2) {
        record.extend(random.buffer(1, 40));
    }
    record
}

/// Breaks what docs/RULES.md says of a record, in none, one or several places.
fn damage(random: &mut Random, record: &mut Vec<u8>) {
    if record.len() >= 16 {
        let byte = random.number() as u8;
        if random.once_in(20) {
            record[random.below(2) as usize] = random.one_of(&[0, 1, 2, 0xb7, byte]);
        }
        if random.once_in(20) {
            record[random.one_of(&[5, 6, 7, 12, 13, 14, 15])] = byte;
        }
        if random.once_in(12) {
            record[2] = random.one_of(&[0, 1, 2, 3, 255, byte]);
        }
        if random.once_in(12) {
            record[3] = random.one_of(&[0, 1, 2, 3, 4, 5, 255, byte]);
        }
        if random.once_in(12) {
            record[4] = random.one_of(&[0, 1, 20, 21, 22, 255, byte, byte % 21]);
        }
        if random.once_in(12) {
            let round = any_round(random, u32::from(record[4]).min(21), u32::from(record[3]));
            record[8..12].copy_from_slice(&round.to_le_bytes());
        }
        if random.once_in(6) {
            let at = random.below(record.len() as u32) as usize;
            record[at] ^= 1 << random.below(8);
        }
    }
    if random.once_in(10) {
        let len = random.below(record.len() as u32 + 1) as usize;
        record.truncate(len);
    }
}

/// The hashes that a round on the record would do, if it is not refused.
fn work(record: &[u8]) -> u32 {
    let Some(head) = record.first_chunk::<16>() else { return 0 };
    let round = u32::from_le_bytes(*head[8..].first_chunk().unwrap());
    Plain.positions(head[4].into(), head[3].into(), round, &mut [0; 41]).map_or(0, |listed| listed.hashes)
}
