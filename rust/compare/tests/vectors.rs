//! Known values and the edges of docs/RULES.md, in both.

use compare::{both, Turn};
use perchmellow::{card_len, POST_LEN};

/// A function, a value and the one after it. MD5 by Python's hashlib and by `openssl dgst -md5`; AES by OpenSSL 3.0, as
/// `openssl enc -aes-128-ecb -nopad -K <value>` of 16 zero bytes.
const STEPS: [(u32, &str, &str); 10] = [
    (0, "00000000000000000000000000000000", "4ae71336e44bf9bf79d2752e234818a5"),
    (0, "000102030405060708090a0b0c0d0e0f", "1ac1ef01e96caf1be0d329331a4fc2a8"),
    (0, "ffffffffffffffffffffffffffffffff", "8d79cbc9a4ecdde112fc91ba625b13c2"),
    (0, "7369787465656e206c65747465727321", "13a100cbf8d75a93a99115ab73814464"),
    (0, "2b7e151628aed2a6abf7158809cf4f3c", "41a04a05dfc039d6c9087e0979e5cc25"),
    (1, "00000000000000000000000000000000", "66e94bd4ef8a2c3b884cfa59ca342b2e"),
    (1, "000102030405060708090a0b0c0d0e0f", "c6a13b37878f5b826f4f8162a1c8d879"),
    (1, "ffffffffffffffffffffffffffffffff", "a1f6258c877d5fcd8964484538bfc92c"),
    (1, "7369787465656e206c65747465727321", "7d45f33c7acd80573469c3e7ede0cd6a"),
    (1, "2b7e151628aed2a6abf7158809cf4f3c", "7df76b0c1ab899b33e42f047b91b546f"),
];

/// Anchors from the seed 00 01 .. 0f: function, k and element 2^k of the chain, worked out by the same tools.
const ANCHORS: [(u32, u32, &str); 8] = [
    (0, 4, "b9bffa896d0c6653caa03dfa73e879aa"),
    (0, 15, "e599722f56f04d94cbd985a2cd37eb9b"),
    (0, 16, "6739778fd4c7529591640abe674c9dd1"),
    (0, 20, "7c51406dec536e8c5182e9d5e35d1f8e"),
    (1, 4, "9ab81974830e0c429d18e3eb5b0c44a4"),
    (1, 15, "c7140d0093549910cf02283a90b1cdba"),
    (1, 16, "a741f6041af74c415041912ef426551b"),
    (1, 20, "00304923c7ae165fb416da549a0362e4"),
];

/// The same for cards of other numbers of ticks: function, ticks and the element of that number.
const ANCHORS_OF_TICKS: [(u32, u32, &str); 6] = [
    (0, 3, "c229ac46657a1bf63acdfef0af4342f3"),
    (0, 300, "0d8c4f74cc875682058de9a81128d957"),
    (0, 65_537, "e4b1846a911a92366f0e16b5798139b6"),
    (1, 3, "7fd33c93316241be4be33fa21eb6641c"),
    (1, 300, "0d8fd0950eb60c0284ca7e67d203bd00"),
    (1, 65_537, "c836f1fcae32296b444fe39e796b95ab"),
];

const SEED: [u8; 16] = [0, 1, 2, 3, 4, 5, 6, 7, 8, 9, 10, 11, 12, 13, 14, 15];

fn value(hex: &str) -> [u8; 16] {
    u128::from_str_radix(hex, 16).unwrap().to_be_bytes()
}

#[test]
fn steps() {
    for (function, from, to) in STEPS {
        assert_eq!(both::step(function, &value(from)), value(to), "function {function} of {from}");
    }
}

#[test]
fn anchors() {
    for (function, k, last) in ANCHORS {
        let mut out = [0; 16];
        both::anchor(function, k, &SEED, &mut out).unwrap();
        assert_eq!(out, value(last), "function {function}, k {k}");
        assert_eq!(both::settle(function, k, &out, &SEED, 1 << k), Ok(true));
    }
}

#[test]
fn anchors_of_ticks() {
    for (function, ticks, last) in ANCHORS_OF_TICKS {
        let mut out = [0; 16];
        both::anchor_ticks(function, ticks, &SEED, &mut out).unwrap();
        assert_eq!(out, value(last), "function {function}, {ticks} ticks");
        // one step from the card's first tick
        let mut card = [0; 700];
        both::start_ticks(function, ticks, 3, &SEED, &mut card).unwrap();
        assert_eq!(both::step(function, card[16..].first_chunk().unwrap()), out);
    }
}

#[test]
fn listing_of_optimal_2() {
    // round, hashes, positions held before it, position put out
    let rounds: [(u32, u32, &[u32], Option<u32>); 7] = [
        (1, 0, &[0], None),
        (2, 1, &[0], None),
        (3, 2, &[1, 0], None),
        (4, 0, &[3, 2, 0], Some(3)),
        (5, 1, &[2, 0], Some(2)),
        (6, 0, &[1, 0], Some(1)),
        (7, 0, &[0], Some(0)),
    ];
    let mut record = [0; card_len(2, 3)];
    both::start(0, 2, 3, &SEED, &mut record).unwrap();
    for (round, hashes, positions, position) in rounds {
        let mut list = vec![0; positions.len()];
        assert_eq!(both::positions(2, 3, round, &mut list).unwrap().hashes, hashes);
        assert_eq!(list, positions);
        assert_eq!(both::round(&mut record, &mut [0; 16]), Ok(Turn { position, hashes }));
    }
    assert_eq!(both::round(&mut record, &mut [0; 16]), Err(6));
}

/// The hashes of rounds `from` on.
fn work<const N: usize>(k: u32, schedule: u32, from: u32) -> [u32; N] {
    std::array::from_fn(|i| both::positions(k, schedule, from + i as u32, &mut [0; 41]).unwrap().hashes)
}

fn held(k: u32, schedule: u32, round: u32) -> Vec<u32> {
    let mut list = [0; 41];
    let listed = both::positions(k, schedule, round, &mut list).unwrap();
    list[..listed.held as usize].to_vec()
}

#[test]
fn twelve_cases() {
    assert_eq!(work(2, 3, 1), [0, 1, 2]);
    assert_eq!(work(3, 3, 1), [0, 0, 0, 2, 1, 2, 2]);
    assert_eq!(work(4, 3, 1), [0, 0, 0, 0, 0, 0, 0, 2, 2, 1, 1, 2, 2, 2, 3]);
    assert_eq!(work(3, 2, 1), [0, 0, 0, 2, 2, 2, 1]);
    assert_eq!(work(3, 1, 9), [2, 1, 1, 0, 1, 0, 0]);
    assert_eq!(work(3, 3, 9), [1, 1, 2, 0, 1, 0, 0]);
    assert_eq!(work(4, 2, 21), [3]);
    assert_eq!(work(4, 0, 23), [7]);
    assert_eq!((work(0, 3, 1), held(0, 3, 1)), ([0], vec![0]));
    assert_eq!((held(3, 3, 11), held(3, 3, 12), held(3, 3, 16)), (vec![4, 1, 0], vec![3, 2, 0], vec![]));
    assert_eq!(held(4, 1, 18).len(), 6);
}

#[test]
fn greatest_k() {
    let mut record = [0; 700];
    for (function, schedule) in [(0, 0), (0, 1), (0, 2), (0, 3), (1, 0), (1, 1), (1, 2), (1, 3)] {
        for k in [20, 21] {
            let wanted = if k == 20 { Ok(()) } else { Err(2) };
            assert_eq!(both::start(function, k, schedule, &SEED, &mut record), wanted);
            assert_eq!(both::enrol(function, k, &SEED, &mut [0; POST_LEN]), wanted);
        }
        both::start(function, 20, schedule, &SEED, &mut record).unwrap();
        for round in 1..100 {
            let Turn { position, hashes } = both::round(&mut record, &mut [0; 16]).unwrap();
            assert_eq!((position, hashes), (None, u32::from(schedule == 1)), "schedule {schedule}, round {round}");
        }
        record[4] = 21;
        assert_eq!(both::round(&mut record, &mut [0; 16]), Err(2));
    }
    assert_eq!(both::anchor(0, 21, &SEED, &mut [0; 16]), Err(2));
    assert_eq!(both::settle(0, 21, &SEED, &SEED, 0), Err(2));
    assert_eq!(both::positions(21, 3, 1, &mut [0; 41]), Err(2));
    assert_eq!(held(20, 3, 1 << 21), vec![]);
    assert_eq!(both::positions(20, 3, (1 << 21) + 1, &mut [0; 41]), Err(5));
    assert_eq!(card_len(20, 1), 624);
}

#[test]
fn longest_round() {
    // rushing does all its hashes in the last preparing round
    for function in [0, 1] {
        let mut record = [0; card_len(20, 0)];
        let mut anchor = [0; 16];
        both::start(function, 20, 0, &SEED, &mut record).unwrap();
        record[8..12].copy_from_slice(&((1u32 << 20) - 1).to_le_bytes());
        assert_eq!(both::round(&mut record, &mut [0; 16]), Ok(Turn { position: None, hashes: (1 << 20) - 1 }));
        both::anchor(function, 20, &SEED, &mut anchor).unwrap();
        let first_tick = record[16..].first_chunk().unwrap();
        assert_eq!(both::step(function, first_tick), anchor);
    }
}

#[test]
fn gap_limits() {
    for function in [0, 1] {
        let mut chain = vec![SEED];
        for i in 0..128 {
            chain.push(both::step(function, &chain[i]));
        }
        let post = |ticks_missed: usize, gap| {
            let mut record = [0; POST_LEN];
            both::enrol(function, 7, &chain[128], &mut record).unwrap();
            both::offer(&mut record, &chain[127 - ticks_missed], gap)
        };
        assert_eq!([post(0, 0), post(0, 1), post(0, 64), post(0, 65)], [Err(7), Ok(1), Ok(1), Err(7)]);
        assert_eq!([post(1, 1), post(1, 2)], [Err(9), Ok(2)]);
        assert_eq!([post(63, 63), post(63, 64), post(64, 64)], [Err(9), Ok(64), Err(9)]);
    }
}

#[test]
fn sizes() {
    for schedule in 0..=3 {
        for k in 0..=20 {
            assert_eq!(perchmellow::slots(k, schedule), plain::slots(k, schedule));
            assert_eq!(perchmellow::card_len(k, schedule), plain::card_len(k, schedule));
        }
    }
    for ticks in (0..=70_000).chain((1 << 20) - 2..(1 << 20) + 3).chain([1 << 21, 1 << 31, u32::MAX]) {
        let levels = (perchmellow::level(ticks), plain::level(ticks));
        assert_eq!(levels.0.map_err(perchmellow::Refusal::number), levels.1.map_err(plain::Refusal::number), "{ticks} ticks");
    }
}
