//! Whole cards, from start to the last tick, both functions, every schedule and every k up to 12: the two agree in every round, what a
//! card holds are the elements of its chain at the listed positions, and two posts take its ticks, one of them with ticks missed.

use compare::{both, Random, Turn};
use perchmellow::{card_len, slots, OPTIMAL, POST_LEN};

const SEED: u64 = 0x7065_7263_6801;

#[test]
fn md5_cards() {
    cards(0);
}

#[test]
fn aes_cards() {
    cards(1);
}

fn cards(function: u32) {
    for schedule in 0..=3 {
        for k in 0..=12 {
            let mut random = Random::new(SEED ^ u64::from(function << 16 | schedule << 8 | k));
            run(function, schedule, k, &mut random);
        }
    }
}

/// The chain from its seed, up to the anchor.
fn chain(function: u32, k: u32, seed: [u8; 16]) -> Vec<[u8; 16]> {
    let mut chain = vec![seed];
    for i in 0..1 << k {
        chain.push(both::step(function, &chain[i]));
    }
    chain
}

fn run(function: u32, schedule: u32, k: u32, random: &mut Random) {
    let told = format!("function {function}, schedule {schedule}, k {k}, seed {SEED:#x}");
    let chain = chain(function, k, random.value());
    let ticks = 1u32 << k;

    let mut record = random.buffer(card_len(k, schedule), 40);
    let behind = record[card_len(k, schedule)..].to_vec();
    both::start(function, k, schedule, &chain[0], &mut record).unwrap();
    let mut posts = Posts::enrol(function, k, &chain, random);

    let (mut all_hashes, mut most_held) = (0, 0);
    for round in 1..2 * ticks {
        // what it holds
        let mut list = [u32::MAX; 41];
        let listed = both::positions(k, schedule, round, &mut list).unwrap();
        let (held, rest) = list.split_at(listed.held as usize);
        assert!(held.is_sorted_by(|a, b| a > b) && rest.iter().all(|n| *n == u32::MAX), "{told}, round {round}: {list:?}");
        let mut values: Vec<[u8; 16]> = held.iter().map(|n| chain[*n as usize]).collect();
        values.resize(slots(k, schedule), [0; 16]);
        let head = [&[0xb7, 1, function as u8, schedule as u8, k as u8, 0, 0, 0][..], &u64::from(round).to_le_bytes()].concat();
        assert_eq!(record, [head, values.concat(), behind.clone()].concat(), "{told}, round {round}");

        // what the round does
        let mut out = random.buffer(16, 20);
        let mut left = out.clone();
        let position = (round >= ticks).then(|| 2 * ticks - round - 1);
        if let Some(n) = position {
            left[..16].copy_from_slice(&chain[n as usize]);
        }
        let turn = both::round(&mut record, &mut out).unwrap();
        assert_eq!((turn, out), (Turn { position, hashes: listed.hashes }, left), "{told}, round {round}");
        assert!(schedule != OPTIMAL || position.is_none() || turn.hashes <= k.div_ceil(2), "{told}, round {round}");
        all_hashes += turn.hashes;
        most_held = most_held.max(held.len());
        if let Some(n) = position {
            posts.take(n, &chain, random);
        }
    }
    assert_eq!(all_hashes, k * ticks / 2, "{told}");
    assert!(most_held <= slots(k, schedule), "{told}: {most_held} held");

    // the card is spent, and its posts are paid
    assert_eq!(both::round(&mut record, &mut [0; 16]), Err(6), "{told}");
    let listed = both::positions(k, schedule, 2 * ticks, &mut []).unwrap();
    assert_eq!((listed.held, listed.hashes), (0, 0), "{told}");
    posts.close(&chain);
}

/// Two posts on one card: to one every tick is offered with G = 1, the other misses some.
struct Posts {
    function: u32,
    k: u32,
    anchor: [u8; 16],
    steady: Vec<u8>,
    gappy: Vec<u8>,
    taken_to: u32,
}

impl Posts {
    fn enrol(function: u32, k: u32, chain: &[[u8; 16]], random: &mut Random) -> Posts {
        let mut anchor = [0; 16];
        both::anchor(function, k, &chain[0], &mut anchor).unwrap();
        assert_eq!(anchor, chain[1 << k]);
        let [steady, gappy] = [0, 1].map(|_| {
            let mut record = random.buffer(POST_LEN, 20);
            both::enrol(function, k, &anchor, &mut record).unwrap();
            record
        });
        Posts { function, k, anchor, steady, gappy, taken_to: 1 << k }
    }

    fn take(&mut self, n: u32, chain: &[[u8; 16]], random: &mut Random) {
        let tick = &chain[n as usize];
        assert_eq!(both::offer(&mut self.steady, tick, 1), Ok(1));
        let steps = self.taken_to - n;
        let last_chance = steps == 64 || n == 0;
        if !last_chance && random.below(3) > 0 {
            return;
        }
        let gap = if last_chance { 64 } else { random.one_of(&[1, 2, 3, 5, 64]) };
        let wanted = if steps <= gap { Ok(steps) } else { Err(9) };
        assert_eq!(both::offer(&mut self.gappy, tick, gap), wanted);
        if wanted.is_ok() {
            self.taken_to = n;
            let paid = (1 << self.k) - n;
            let laid = [&[0xb7, 2, self.function as u8, self.k as u8][..], &paid.to_le_bytes(), &self.anchor, tick].concat();
            assert_eq!(self.gappy[..POST_LEN], laid);
            if self.k < 8 || random.once_in(50) {
                assert_eq!(both::settle(self.function, self.k, &self.anchor, tick, paid), Ok(true));
            }
        }
    }

    fn close(mut self, chain: &[[u8; 16]]) {
        let (function, k, all) = (self.function, self.k, 1 << self.k);
        for post in [&mut self.steady, &mut self.gappy] {
            assert_eq!(post[4..8], u32::to_le_bytes(all));
            assert_eq!(both::offer(post, &chain[0], 64), Err(6));
            assert_eq!(both::settle(function, k, &self.anchor, &post[24..40], all), Ok(true));
            assert_eq!(both::settle(function, k, &self.anchor, &post[24..40], all - 1), Ok(false));
            assert_eq!(both::settle(function, k, &self.anchor, &post[24..40], all + 1), Err(5));
        }
    }
}
