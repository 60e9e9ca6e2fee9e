//! Random numbers from a seed.

pub struct Random(u64);

impl Random {
    pub fn new(seed: u64) -> Random {
        Random(seed)
    }

    pub fn number(&mut self) -> u64 {
        self.0 = self.0.wrapping_add(0x9e37_79b9_7f4a_7c15);
        let mut z = self.0;
        z = (z ^ (z >> 30)).wrapping_mul(0xbf58_476d_1ce4_e5b9);
        z = (z ^ (z >> 27)).wrapping_mul(0x94d0_49bb_1331_11eb);
        z ^ (z >> 31)
    }

    /// A number below n, which is at least 1.
    pub fn below(&mut self, n: usize) -> usize {
        (self.number() % n as u64) as usize
    }

    pub fn chance(&mut self, percent: usize) -> bool {
        self.below(100) < percent
    }

    pub fn pick<'a, T>(&mut self, items: &'a [T]) -> &'a T {
        &items[self.below(items.len())]
    }

    /// A constant or a bound of a table, which has four bytes: mostly small, sometimes at its limits.
    pub fn value(&mut self) -> i32 {
        match self.below(10) {
            0 => i32::MAX - self.below(3) as i32,
            1 => i32::MIN + self.below(3) as i32,
            2 => self.number() as i32,
            3..=5 => self.below(200) as i32 - 100,
            _ => self.below(6) as i32 - 1,
        }
    }

    /// A value that a register holds: often at the limits of values, or where products pass them or 64 bits.
    pub fn held(&mut self) -> i64 {
        let limit = 1_000_000_000_000;
        let about = *self.pick(&[limit, limit, limit, 1_000_000, i64::from(i32::MAX), 1 << 32]);
        match self.below(3) {
            0 => about - self.below(3) as i64,
            1 => self.below(3) as i64 - about,
            _ => self.value() as i64,
        }
    }
}
