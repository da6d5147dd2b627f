//! Rebuilds beside cards that were run, and cards of any number of ticks.

use plain::{
    anchor, anchor_ticks, card_len, enrol, level, offer, rebuild, round, settle, start, start_ticks, Refusal, Round, POST_LEN, TICKS_MOST,
};

const SEED: [u8; 16] = *b"a seed for plain";

/// More than the longest record takes.
const LENT: usize = 700;

fn step(function: u32, value: &[u8; 16]) -> [u8; 16] {
    let mut next = [0; 16];
    anchor(function, 0, value, &mut next).unwrap();
    next
}

#[test]
fn a_rebuild_is_a_start_and_the_rounds_before() {
    for function in 0..2 {
        for schedule in 0..4 {
            for k in 0..=8 {
                let mut ran = [0xa5; LENT];
                start(function, k, schedule, &SEED, &mut ran).unwrap();
                for r in 1..=2 << k {
                    let mut rebuilt = [0xa5; LENT];
                    rebuild(function, k, schedule, r, &SEED, &mut rebuilt).unwrap();
                    assert_eq!(rebuilt, ran, "function {function}, schedule {schedule}, k {k}, round {r}");
                    let spent = round(&mut ran, &mut [0; 16]).err();
                    assert_eq!(spent, (r == 2 << k).then_some(Refusal::Spent));
                }
            }
        }
    }
}

#[test]
fn every_tick_of_a_card_is_paid() {
    for n in (1..=70).chain([127, 128, 129, 300]) {
        let k = level(n).unwrap();
        assert!(n <= 1 << k && (k == 0 || n > 1 << (k - 1)), "{n} ticks at level {k}");
        for (function, schedule) in [(0, 0), (1, 1), (0, 2), (1, 3)] {
            let mut chain = vec![SEED];
            for i in 0..n as usize {
                chain.push(step(function, &chain[i]));
            }
            let (mut card, mut post, mut last, mut tick) = ([0xa5; LENT], [0; POST_LEN], [0; 16], [0; 16]);
            start_ticks(function, n, schedule, &SEED, &mut card).unwrap();
            assert!(card[card_len(k, schedule)..].iter().all(|byte| *byte == 0xa5));
            anchor_ticks(function, n, &SEED, &mut last).unwrap();
            assert_eq!(last, chain[n as usize]);
            enrol(function, k, &last, &mut post).unwrap();
            for wanted in (0..n).rev() {
                let Ok(Round::Tick { position, .. }) = round(&mut card, &mut tick) else { panic!("a card of {n} ticks pays {wanted}") };
                assert_eq!((position, tick), (wanted, chain[wanted as usize]));
                assert_eq!(offer(&mut post, &tick, 1), Ok(1));
            }
            assert_eq!(round(&mut card, &mut tick), Err(Refusal::Spent));
            assert_eq!(settle(function, k, &last, &tick, n), Ok(true));
            let full = if n == 1 << k { Refusal::Spent } else { Refusal::NotTaken };
            assert_eq!(offer(&mut post, &tick, 64), Err(full));
        }
    }
}

#[test]
fn a_whole_level_is_the_card_and_the_anchor_of_old() {
    for k in 0..=10 {
        let (mut by_k, mut by_ticks) = ([0; 16], [0; 16]);
        anchor(1, k, &SEED, &mut by_k).unwrap();
        anchor_ticks(1, 1 << k, &SEED, &mut by_ticks).unwrap();
        assert_eq!(by_k, by_ticks);
        let (mut by_k, mut by_ticks) = ([0; LENT], [0; LENT]);
        rebuild(1, k, 3, 1 << k, &SEED, &mut by_k).unwrap();
        start_ticks(1, 1 << k, 3, &SEED, &mut by_ticks).unwrap();
        assert_eq!(by_k, by_ticks);
    }
}

#[test]
fn levels() {
    let some = [(1, 0), (2, 1), (3, 2), (4, 2), (5, 3), (300, 9), (65_536, 16), (65_537, 17), (1_048_575, 20), (1_048_576, 20)];
    for (ticks, k) in some {
        assert_eq!(level(ticks), Ok(k));
    }
    for ticks in [0, TICKS_MOST + 1, 1 << 21, 1 << 31, u32::MAX] {
        assert_eq!(level(ticks), Err(Refusal::BadTicks));
    }
}

/// Each refusal where all that are judged later would be earned as well, and nothing written.
#[test]
fn the_first_refusal_is_said() {
    let (mut record, mut out) = ([0xa5; LENT], [0xa5; 16]);
    let mut rebuilt = |function, k, schedule, round, seed: &[u8], len| {
        let answer = rebuild(function, k, schedule, round, seed, &mut record[..len]).map_err(Refusal::number);
        assert!(answer.is_ok() || record == [0xa5; LENT]);
        answer
    };
    assert_eq!(rebuilt(2, 21, 4, 0, &[], 0), Err(1));
    assert_eq!(rebuilt(1, 21, 4, 0, &[], 0), Err(2));
    assert_eq!(rebuilt(1, 20, 4, 0, &[], 0), Err(3));
    assert_eq!(rebuilt(1, 20, 3, 0, &[], 0), Err(5));
    assert_eq!(rebuilt(1, 4, 3, 33, &[], 0), Err(5));
    assert_eq!(rebuilt(1, 4, 3, u32::MAX, &[], 0), Err(5));
    assert_eq!(rebuilt(1, 4, 3, 32, &[], LENT), Err(4));
    assert_eq!(rebuilt(1, 4, 3, 32, &SEED, card_len(4, 3) - 1), Err(4));
    assert_eq!(rebuilt(1, 4, 3, 32, &SEED, card_len(4, 3)), Ok(()));
    record = [0xa5; LENT];
    let mut started = |function, ticks, schedule, seed: &[u8], len| {
        let answer = start_ticks(function, ticks, schedule, seed, &mut record[..len]).map_err(Refusal::number);
        assert!(answer.is_ok() || record == [0xa5; LENT]);
        answer
    };
    assert_eq!(started(2, 0, 4, &[], 0), Err(1));
    assert_eq!(started(1, 0, 4, &[], 0), Err(3));
    assert_eq!(started(1, 0, 3, &[], 0), Err(10));
    assert_eq!(started(1, TICKS_MOST + 1, 3, &[], 0), Err(10));
    assert_eq!(started(1, 300, 3, &[0; 17], LENT), Err(4));
    assert_eq!(started(1, 300, 3, &SEED, card_len(9, 3) - 1), Err(4));
    assert_eq!(started(1, 300, 3, &SEED, card_len(9, 3)), Ok(()));
    let mut anchored = |function, ticks, seed: &[u8], len| {
        let answer = anchor_ticks(function, ticks, seed, &mut out[..len]).map_err(Refusal::number);
        assert!(answer.is_ok() || out == [0xa5; 16]);
        answer
    };
    assert_eq!(anchored(2, 0, &[], 0), Err(1));
    assert_eq!(anchored(1, 0, &[], 0), Err(10));
    assert_eq!(anchored(1, u32::MAX, &[], 0), Err(10));
    assert_eq!(anchored(1, 300, &[], 16), Err(4));
    assert_eq!(anchored(1, 300, &SEED, 15), Err(4));
    assert_eq!(anchored(1, 300, &SEED, 16), Ok(()));
}
