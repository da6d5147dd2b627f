//! Functions, schedules and refusals by their numbers.

use perchmellow::*;

const SEED: [u8; VALUE_LEN] = [7; VALUE_LEN];

/// Numbers beyond the known ones, some of them like a known one in their low byte.
const UNKNOWN: [u32; 5] = [4, 7, 256, 1 << 16, u32::MAX];

#[test]
fn every_number_reaches_the_library() {
    let lent = [0xcc; CARD_LEN_MOST];
    let (mut record, mut list) = (lent, [0; POSITIONS_MOST]);
    for number in UNKNOWN {
        let (function, schedule) = (number, number);
        assert_eq!(start(function, 4, OPTIMAL, &SEED, &mut record), Err(Refusal::UnknownFunction));
        assert_eq!(start_ticks(function, 16, OPTIMAL, &SEED, &mut record), Err(Refusal::UnknownFunction));
        assert_eq!(rebuild(function, 4, OPTIMAL, 1, &SEED, &mut record), Err(Refusal::UnknownFunction));
        assert_eq!(anchor(function, 4, &SEED, &mut record), Err(Refusal::UnknownFunction));
        assert_eq!(anchor_ticks(function, 16, &SEED, &mut record), Err(Refusal::UnknownFunction));
        assert_eq!(enrol(function, 4, &SEED, &mut record), Err(Refusal::UnknownFunction));
        assert_eq!(settle(function, 4, &SEED, &SEED, 0), Err(Refusal::UnknownFunction));
        assert_eq!(start(AES, 4, schedule, &SEED, &mut record), Err(Refusal::UnknownSchedule));
        assert_eq!(start_ticks(AES, 16, schedule, &SEED, &mut record), Err(Refusal::UnknownSchedule));
        assert_eq!(rebuild(AES, 4, schedule, 1, &SEED, &mut record), Err(Refusal::UnknownSchedule));
        assert_eq!(positions(4, schedule, 1, &mut list), Err(Refusal::UnknownSchedule));
        // the library's order decides, not the wrapper
        assert_eq!(start(function, 21, schedule, &[], &mut []), Err(Refusal::UnknownFunction));
        assert_eq!(start(MD5, 21, schedule, &[], &mut []), Err(Refusal::TooManyTicks));
    }
    assert_eq!((record, list), (lent, [0; POSITIONS_MOST]));
}

#[test]
fn names_are_the_numbers_of_a_record() {
    let mut record = [0; CARD_LEN_MOST];
    for (function, number) in [(MD5, 0), (AES, 1)] {
        for (schedule, of_schedule) in [(RUSHING, 0), (SPEED_1, 1), (SPEED_2, 2), (OPTIMAL, 3)] {
            start(function, 4, schedule, &SEED, &mut record).unwrap();
            assert_eq!(record[2..5], [number, of_schedule, 4]);
        }
    }
}

#[test]
fn refusals_have_their_numbers() {
    let mut numbers = vec![];
    for number in 0..=u8::MAX {
        if let Some(refusal) = Refusal::of(number) {
            assert_eq!(refusal.number(), number);
            numbers.push(number);
        }
    }
    assert_eq!(numbers, (1..=10).collect::<Vec<u8>>());
}
