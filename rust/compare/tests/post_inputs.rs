//! Random, damaged, short and long inputs for the post's calls.

use compare::{both, cases, Calls, Plain, Random};
use perchmellow::POST_LEN;

#[test]
fn enrol() {
    cases("enrol", 0x7065_7263_6821, &["enrolled"], &[1, 2, 4], |random| {
        let (function, k, anchor) = (random.function(), random.k(), random.taken());
        let mut record = random.lent(POST_LEN);
        both::enrol(function, k, &anchor, &mut record).map(|()| "enrolled")
    });
}

#[test]
fn settle() {
    cases("settle", 0x7065_7263_6822, &["yes", "no"], &[1, 2, 4, 5], |random| {
        let (function, k) = (random.function(), random.k());
        let ticks = 1 << k.min(20);
        let mut paid = match random.below(6) {
            0 => ticks,
            1 => ticks - 1,
            2 => 0,
            _ => random.within(0, ticks),
        };
        if paid > 300 && !random.once_in(3000) {
            paid %= 300;
        }
        let last = random.value();
        let anchor = walk(function, &last, if random.once_in(4) { paid.saturating_sub(1) } else { paid });
        let (mut anchor, mut last) = (anchor.to_vec(), last.to_vec());
        match random.below(20) {
            0 => anchor = random.taken(),
            1 => last = random.taken(),
            2 => anchor[random.below(16) as usize] ^= 1 << random.below(8),
            3 => drop(anchor.pop()),
            4 => last.push(0),
            _ => {}
        }
        if random.once_in(10) {
            paid = random.one_of(&[ticks + 1, ticks + 2, 2 * ticks + 1, 1 << 21, 1 << 31, u32::MAX]);
        }
        both::settle(function, k, &anchor, &last, paid).map(|yes| if yes { "yes" } else { "no" })
    });
}

#[test]
fn offer() {
    cases("offer", 0x7065_7263_6823, &["one", "several"], &[1, 2, 4, 5, 6, 7, 9], |random| {
        let (function, k) = (random.below(2), random.within(0, 20));
        let (ticks, value) = (1 << k, random.value());
        let steps = random.one_of(&[1, 2, 63, 64, 65]).min(random.within(1, 66));
        let held = walk(function, &value, steps);
        let paid = match random.below(8) {
            0 => 0,
            1 => ticks,
            2 => ticks - 1,
            3 => ticks - random.within(0, 66).min(ticks),
            _ => random.within(0, ticks),
        };
        let anchor = if paid == 0 { held } else { random.value() };
        let mut record = vec![0xb7, 2, function as u8, k as u8];
        record.extend(paid.to_le_bytes());
        record.extend(anchor);
        record.extend(held);
        if random.once_in(2) {
            record.extend(random.buffer(1, 40));
        }
        damage(random, &mut record, ticks);
        let offered = match random.below(16) {
            0 => held.to_vec(),
            1 => random.taken(),
            2 => walk(function, &value, 1).to_vec(),
            3 => value[..15].to_vec(),
            _ => value.to_vec(),
        };
        let gap = match random.below(12) {
            0 => random.one_of(&[0, 65, 66, 128, 256, 257, 1 << 16, u32::MAX]),
            1 => steps,
            2 => steps - 1,
            3 => steps + 1,
            4..8 => 64,
            _ => random.within(1, 64),
        };
        both::offer(&mut record, &offered, gap).map(|credit| if credit == 1 { "one" } else { "several" })
    });
}

fn walk(function: u32, value: &[u8; 16], steps: u32) -> [u8; 16] {
    let mut at = *value;
    for _ in 0..steps {
        let from = at;
        // for a function that there is not, any value does
        let _ = Plain.anchor(function, 0, &from, &mut at);
    }
    at
}

/// Breaks what docs/RULES.md says of a record, in none, one or several places.
fn damage(random: &mut Random, record: &mut Vec<u8>, ticks: u32) {
    let byte = random.number() as u8;
    if random.once_in(20) {
        record[random.below(2) as usize] = random.one_of(&[0, 1, 2, 0xb7, byte]);
    }
    if random.once_in(12) {
        record[2] = random.one_of(&[0, 1, 2, 3, 255, byte]);
    }
    if random.once_in(12) {
        record[3] = random.one_of(&[0, 1, 20, 21, 22, 255, byte, byte % 21]);
    }
    if random.once_in(12) {
        let paid = random.one_of(&[0, ticks + 1, ticks + 2, 2 * ticks, 1 << 20, (1 << 20) + 1, 1 << 31, u32::MAX]);
        record[4..8].copy_from_slice(&paid.to_le_bytes());
    }
    if random.once_in(6) {
        let at = random.below(record.len() as u32) as usize;
        record[at] ^= 1 << random.below(8);
    }
    if random.once_in(10) {
        let len = random.below(record.len() as u32 + 1) as usize;
        record.truncate(len);
    }
}
