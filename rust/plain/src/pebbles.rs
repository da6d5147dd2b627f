//! The published recursion in numbers. With c rounds left, a card of 2^k ticks runs P_k alone until it has put out its y_0, and after
//! that a pebbler P_i for each set bit i of c. Each of them is in a round from 1 to 2^i, and hashes along the chain from its own x.

/// The bit length.
fn len(n: u32) -> u32 {
    u32::BITS - n.leading_zeros()
}

/// The pebblers that run with `left` rounds left, the one that puts out its y_0 first.
#[derive(Clone, Copy)]
pub struct Running {
    left: u32,
    levels: u32,
}

/// The pebblers of a card of 2^k ticks with `left` rounds left, at most 2^(k+1) - 1.
pub fn running(k: u32, left: u32) -> Running {
    let levels = if left >> k == 0 { left } else { 1 << k };
    Running { left, levels }
}

impl Iterator for Running {
    type Item = Pebbler;

    #[inline]
    fn next(&mut self) -> Option<Pebbler> {
        if self.levels == 0 {
            return None;
        }
        let level = self.levels.trailing_zeros();
        self.levels &= self.levels - 1;
        let left = self.left & ((1 << level) - 1);
        Some(Pebbler { level, left, base: self.left - left - (1 << level) })
    }
}

/// P_level on the chain's element `base`, `left` rounds before the one that puts out its y_0.
#[derive(Clone, Copy)]
pub struct Pebbler {
    pub level: u32,
    pub left: u32,
    pub base: u32,
}

impl Pebbler {
    /// Hashes in this round: t(k, r) of docs/RULES.md, at r = 2^k - left.
    #[inline]
    pub fn hashes(self, schedule: u32) -> u32 {
        let Pebbler { level: k, left, .. } = self;
        if left == 0 {
            return 0;
        }
        let in_second_half = left <= 1 << (k - 1);
        match schedule {
            0 if left == 1 => (1 << k) - 1,
            0 => 0,
            1 => 1,
            _ if !in_second_half => 0,
            2 if left == 1 => 1,
            2 => 2,
            _ => {
                let r = (1u32 << k) - left;
                ((k + r) % 2 + k + 1 - len((2 * r) & ((1 << len(left)) - 1))) / 2
            }
        }
    }

    /// Hashes to do from this round on, of 2^k - 1 in all: the sum of t over the rounds that are left.
    #[inline]
    pub fn to_do(self, schedule: u32) -> u32 {
        let Pebbler { level: k, left, .. } = self;
        if left == 0 {
            return 0;
        }
        let all = (1 << k) - 1;
        match schedule {
            0 => all,
            1 => left,
            _ if left >= 1 << (k - 1) => all,
            2 => 2 * left - 1,
            _ => {
                // t adds up over z, the rounds up to the next power of two: n (k - len n) + 2^len(n) is k - len n summed
                let power = 1 << len(left);
                let z = power - left;
                let below = z * (k - len(z)) + (1 << len(z));
                ((k + left) % 2 + power * (k + 3 - len(left)) - below - 2) / 2
            }
        }
    }
}

/// Which of the y's is the newest, with so many hashes to do.
#[inline]
pub fn newest(to_do: u32) -> u32 {
    len(to_do + 1) - 1
}

/// Whether the newest y is whole, so that the next hash begins the one below it.
#[inline]
pub fn is_whole(to_do: u32) -> bool {
    (to_do + 1).is_power_of_two()
}
