//! Function 1: AES-128 of the zero block under a value as key. A column is a word of four bytes, row 0 lowest. A round looks up in
//! tables what SubBytes and MixColumns make of a byte, and the round keys are worked out as they are needed.

use crate::function::Words;

/// FIPS 197's S-box: the inverse in the field, then the affine map. `p` runs through the powers of 3 and `q` through those of its inverse.
const S_BOX: [u8; 256] = {
    let mut table = [0; 256];
    let (mut p, mut q) = (1u8, 1u8);
    loop {
        p ^= times_x(p);
        q ^= q << 1;
        q ^= q << 2;
        q ^= q << 4;
        if q & 0x80 != 0 {
            q ^= 0x09;
        }
        table[p as usize] = 0x63 ^ q ^ q.rotate_left(1) ^ q.rotate_left(2) ^ q.rotate_left(3) ^ q.rotate_left(4);
        if p == 1 {
            break;
        }
    }
    table[0] = 0x63;
    table
};

/// What a byte of each row adds to its column in SubBytes and MixColumns.
static MIXED: [[u32; 256]; 4] = {
    let mut tables = [[0; 256]; 4];
    let mut i = 0;
    while i < 256 {
        let s = S_BOX[i];
        let column = u32::from_le_bytes([times_x(s), s, s, times_x(s) ^ s]);
        let mut row = 0;
        while row < 4 {
            tables[row][i] = column.rotate_left(8 * row as u32);
            row += 1;
        }
        i += 1;
    }
    tables
};

static SUBSTITUTE: [u8; 256] = S_BOX;

/// The first byte of Rcon, by round.
const RCON: [u32; 10] = [0x01, 0x02, 0x04, 0x08, 0x10, 0x20, 0x40, 0x80, 0x1b, 0x36];

const fn times_x(b: u8) -> u8 {
    (b << 1) ^ ((b >> 7) * 0x1b)
}

/// The zero block under the value as key.
#[inline(always)]
pub fn of_zero(value: Words) -> Words {
    let mut key = value;
    // the zero block and round key 0
    let mut state = key;
    for rcon in &RCON[..9] {
        key = next_key(key, *rcon);
        state = round(key, mixed, state);
    }
    round(next_key(key, RCON[9]), substituted, state)
}

/// Each column from those that its rows come from, and the round key.
#[inline(always)]
fn round(key: Words, column: impl Fn(u32, u32, u32, u32) -> u32, [a, b, c, d]: Words) -> Words {
    [key[0] ^ column(a, b, c, d), key[1] ^ column(b, c, d, a), key[2] ^ column(c, d, a, b), key[3] ^ column(d, a, b, c)]
}

/// Byte `row` of a column.
#[inline(always)]
fn byte(column: u32, row: u32) -> usize {
    (column >> (8 * row)) as usize & 0xff
}

/// A column after SubBytes, ShiftRows and MixColumns.
#[inline(always)]
fn mixed(a: u32, b: u32, c: u32, d: u32) -> u32 {
    MIXED[0][byte(a, 0)] ^ MIXED[1][byte(b, 1)] ^ MIXED[2][byte(c, 2)] ^ MIXED[3][byte(d, 3)]
}

/// The same without MixColumns, for the last round and the round keys.
#[inline(always)]
fn substituted(a: u32, b: u32, c: u32, d: u32) -> u32 {
    u32::from_le_bytes([SUBSTITUTE[byte(a, 0)], SUBSTITUTE[byte(b, 1)], SUBSTITUTE[byte(c, 2)], SUBSTITUTE[byte(d, 3)]])
}

/// A round key from the one before.
#[inline(always)]
fn next_key(key: Words, rcon: u32) -> Words {
    let turned = key[3].rotate_right(8);
    let a = key[0] ^ substituted(turned, turned, turned, turned) ^ rcon;
    let b = key[1] ^ a;
    let c = key[2] ^ b;
    [a, b, c, key[3] ^ c]
}
