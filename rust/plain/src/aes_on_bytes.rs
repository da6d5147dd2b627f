//! Function 1 once more, in the form that docs/RULES.md asks of the proved code: bytes and the S-box, no tables of columns. With the
//! feature `on_bytes` it takes the place of `aes`, so that the benchmark shows how much of a difference is the form.

use crate::function::{bytes, words, Words};

/// FIPS 197's S-box, by its rule.
static S_BOX: [u8; 256] = {
    let mut table = [0x63; 256];
    let mut b = 1;
    while b < 256 {
        let q = inverse(b as u8);
        table[b] = 0x63 ^ q ^ q.rotate_left(1) ^ q.rotate_left(2) ^ q.rotate_left(3) ^ q.rotate_left(4);
        b += 1;
    }
    table
};

const fn times_x(b: u8) -> u8 {
    (b << 1) ^ ((b >> 7) * 0x1b)
}

const fn times(a: u8, b: u8) -> u8 {
    let (mut product, mut power, mut bit) = (0, a, 0);
    while bit < 8 {
        if b >> bit & 1 == 1 {
            product ^= power;
        }
        power = times_x(power);
        bit += 1;
    }
    product
}

/// The power 254.
const fn inverse(b: u8) -> u8 {
    let (mut power, mut n) = (1, 0);
    while n < 254 {
        power = times(power, b);
        n += 1;
    }
    power
}

/// The zero block under the value as key.
pub fn of_zero(value: Words) -> Words {
    words(&encrypted(bytes(value)))
}

fn encrypted(value: [u8; 16]) -> [u8; 16] {
    let sub = |b: u8| S_BOX[b as usize];
    let (mut key, mut state, mut rcon) = (value, value, 1);
    for round in 1..=10 {
        let turned = [sub(key[13]) ^ rcon, sub(key[14]), sub(key[15]), sub(key[12])];
        rcon = times_x(rcon);
        for i in 0..4 {
            key[i] ^= turned[i];
        }
        for i in 4..16 {
            key[i] ^= key[i - 4];
        }
        // SubBytes and ShiftRows: byte i is in row i mod 4
        let mut moved = [0; 16];
        for i in 0..16 {
            moved[i] = sub(state[(i + i % 4 * 4) % 16]);
        }
        if round < 10 {
            for column in moved.as_chunks_mut::<4>().0 {
                *column = mix_column(*column);
            }
        }
        for i in 0..16 {
            state[i] = moved[i] ^ key[i];
        }
    }
    state
}

fn mix_column(a: [u8; 4]) -> [u8; 4] {
    let all = a[0] ^ a[1] ^ a[2] ^ a[3];
    std::array::from_fn(|i| a[i] ^ all ^ times_x(a[i] ^ a[(i + 1) % 4]))
}
