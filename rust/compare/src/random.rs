//! Numbers for tests, the same in every run: splitmix64.

pub struct Random(u64);

impl Random {
    pub fn new(seed: u64) -> Random {
        Random(seed)
    }

    pub fn number(&mut self) -> u64 {
        self.0 = self.0.wrapping_add(0x9e37_79b9_7f4a_7c15);
        let mut z = self.0;
        z = (z ^ (z >> 30)).wrapping_mul(0xbf58_476d_1ce4_e5b9);
        z = (z ^ (z >> 27)).wrapping_mul(0x94d0_49bb_1331_11eb);
        z ^ (z >> 31)
    }

    /// A number below n.
    pub fn below(&mut self, n: u32) -> u32 {
        (((self.number() >> 32) * u64::from(n)) >> 32) as u32
    }

    /// A number from `least` to `most`.
    pub fn within(&mut self, least: u32, most: u32) -> u32 {
        least + self.below(most - least + 1)
    }

    /// True once in n.
    pub fn once_in(&mut self, n: u32) -> bool {
        self.below(n) == 0
    }

    pub fn one_of<T: Copy>(&mut self, of: &[T]) -> T {
        of[self.below(of.len() as u32) as usize]
    }

    pub fn bytes(&mut self, n: usize) -> Vec<u8> {
        (0..n).map(|_| self.number() as u8).collect()
    }

    /// So many bytes and up to `more` behind them.
    pub fn buffer(&mut self, least: usize, more: u32) -> Vec<u8> {
        let n = least + self.within(0, more) as usize;
        self.bytes(n)
    }

    /// A buffer for something of n bytes: long enough or longer as a rule, and too short else.
    pub fn lent(&mut self, n: usize) -> Vec<u8> {
        match self.below(12) {
            0 => self.bytes(n.saturating_sub(1)),
            1 => {
                let short = self.below(n as u32) as usize;
                self.bytes(short)
            }
            2..6 => self.bytes(n),
            _ => self.buffer(n, 40),
        }
    }

    /// Bytes to be taken for a value: 16 of them as a rule.
    pub fn taken(&mut self) -> Vec<u8> {
        match self.below(12) {
            0 => self.bytes(15),
            1 => self.buffer(17, 3),
            2 => self.buffer(0, 40),
            _ => self.value().to_vec(),
        }
    }

    /// A function's number: one of the two as a rule. The others look like them in their low byte, or in nothing.
    pub fn function(&mut self) -> u32 {
        self.known(1, &[2, 3, 255, 256, 257, 1 << 16, 1 << 24, u32::MAX])
    }

    pub fn schedule(&mut self) -> u32 {
        self.known(3, &[4, 5, 255, 256, 259, 1 << 16, 1 << 31, u32::MAX])
    }

    pub fn k(&mut self) -> u32 {
        self.known(20, &[21, 22, 31, 32, 63, 64, 255, 256, 276, 1 << 16, u32::MAX])
    }

    /// A number of ticks, about the powers of two as often as between them, and now and then one that no card has.
    pub fn ticks(&mut self) -> u32 {
        let power = 1 << self.within(0, 20);
        match self.below(12) {
            0 => self.one_of(&[0, (1 << 20) + 1, (1 << 20) + 2, 1 << 21, 1 << 31, u32::MAX]),
            1..5 => (power - 1 + self.below(3)).clamp(1, 1 << 20),
            _ => self.within(1, power),
        }
    }

    fn known(&mut self, most: u32, unknown: &[u32]) -> u32 {
        match self.below(12) {
            0 => self.one_of(unknown),
            _ => self.within(0, most),
        }
    }

    /// A value; now and then one of zeros, which a slot may hold as well as any other.
    pub fn value(&mut self) -> [u8; 16] {
        if self.once_in(16) {
            return [0; 16];
        }
        std::array::from_fn(|_| self.number() as u8)
    }
}
