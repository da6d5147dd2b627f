//! Function 0: MD5 of 16 bytes, one block. The block's words behind the value are constants, so they are in the code and not in an array.

use crate::function::Words;

const INITIAL: Words = [0x6745_2301, 0xefcd_ab89, 0x98ba_dcfe, 0x1032_5476];

/// Four steps, after which the registers are back in their places.
macro_rules! four {
    ($mix:ident, [$a:ident $b:ident $c:ident $d:ident], [$r0:literal $r1:literal $r2:literal $r3:literal],
     $m0:expr, $t0:literal; $m1:expr, $t1:literal; $m2:expr, $t2:literal; $m3:expr, $t3:literal) => {
        $a = step($a, $mix($b, $c, $d), $m0, $t0, $r0, $b);
        $d = step($d, $mix($a, $b, $c), $m1, $t1, $r1, $a);
        $c = step($c, $mix($d, $a, $b), $m2, $t2, $r2, $d);
        $b = step($b, $mix($c, $d, $a), $m3, $t3, $r3, $c);
    };
}

#[inline(always)]
fn step(a: u32, mixed: u32, word: u32, add: u32, places: u32, b: u32) -> u32 {
    a.wrapping_add(mixed).wrapping_add(word).wrapping_add(add).rotate_left(places).wrapping_add(b)
}

#[inline(always)]
fn f(x: u32, y: u32, z: u32) -> u32 {
    z ^ (x & (y ^ z))
}

/// The two parts have no bit in common, so that their union is their sum, which the compiler can put in order with the step's other sums.
#[inline(always)]
fn g(x: u32, y: u32, z: u32) -> u32 {
    (x & z).wrapping_add(y & !z)
}

#[inline(always)]
fn h(x: u32, y: u32, z: u32) -> u32 {
    x ^ y ^ z
}

#[inline(always)]
fn i(x: u32, y: u32, z: u32) -> u32 {
    y ^ (x | !z)
}

/// MD5 of a value.
#[inline(always)]
pub fn of_value([m0, m1, m2, m3]: Words) -> Words {
    // the byte 0x80 behind the value; the length in bits; zeros
    const M4: u32 = 0x80;
    const M14: u32 = 128;
    const Z: u32 = 0;
    let [mut a, mut b, mut c, mut d] = INITIAL;

    four!(f, [a b c d], [7 12 17 22], m0, 0xd76a_a478; m1, 0xe8c7_b756; m2, 0x2420_70db; m3, 0xc1bd_ceee);
    four!(f, [a b c d], [7 12 17 22], M4, 0xf57c_0faf; Z, 0x4787_c62a; Z, 0xa830_4613; Z, 0xfd46_9501);
    four!(f, [a b c d], [7 12 17 22], Z, 0x6980_98d8; Z, 0x8b44_f7af; Z, 0xffff_5bb1; Z, 0x895c_d7be);
    four!(f, [a b c d], [7 12 17 22], Z, 0x6b90_1122; Z, 0xfd98_7193; M14, 0xa679_438e; Z, 0x49b4_0821);

    four!(g, [a b c d], [5 9 14 20], m1, 0xf61e_2562; Z, 0xc040_b340; Z, 0x265e_5a51; m0, 0xe9b6_c7aa);
    four!(g, [a b c d], [5 9 14 20], Z, 0xd62f_105d; Z, 0x0244_1453; Z, 0xd8a1_e681; M4, 0xe7d3_fbc8);
    four!(g, [a b c d], [5 9 14 20], Z, 0x21e1_cde6; M14, 0xc337_07d6; m3, 0xf4d5_0d87; Z, 0x455a_14ed);
    four!(g, [a b c d], [5 9 14 20], Z, 0xa9e3_e905; m2, 0xfcef_a3f8; Z, 0x676f_02d9; Z, 0x8d2a_4c8a);

    four!(h, [a b c d], [4 11 16 23], Z, 0xfffa_3942; Z, 0x8771_f681; Z, 0x6d9d_6122; M14, 0xfde5_380c);
    four!(h, [a b c d], [4 11 16 23], m1, 0xa4be_ea44; M4, 0x4bde_cfa9; Z, 0xf6bb_4b60; Z, 0xbebf_bc70);
    four!(h, [a b c d], [4 11 16 23], Z, 0x289b_7ec6; m0, 0xeaa1_27fa; m3, 0xd4ef_3085; Z, 0x0488_1d05);
    four!(h, [a b c d], [4 11 16 23], Z, 0xd9d4_d039; Z, 0xe6db_99e5; Z, 0x1fa2_7cf8; m2, 0xc4ac_5665);

    four!(i, [a b c d], [6 10 15 21], m0, 0xf429_2244; Z, 0x432a_ff97; M14, 0xab94_23a7; Z, 0xfc93_a039);
    four!(i, [a b c d], [6 10 15 21], Z, 0x655b_59c3; m3, 0x8f0c_cc92; Z, 0xffef_f47d; m1, 0x8584_5dd1);
    four!(i, [a b c d], [6 10 15 21], Z, 0x6fa8_7e4f; Z, 0xfe2c_e6e0; Z, 0xa301_4314; Z, 0x4e08_11a1);
    four!(i, [a b c d], [6 10 15 21], M4, 0xf753_7e82; Z, 0xbd3a_f235; m2, 0x2ad7_d2bb; Z, 0xeb86_d391);

    [a.wrapping_add(INITIAL[0]), b.wrapping_add(INITIAL[1]), c.wrapping_add(INITIAL[2]), d.wrapping_add(INITIAL[3])]
}
