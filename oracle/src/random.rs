// SplitMix64: the same numbers for the same seed, everywhere.

pub struct Random(pub u64);

impl Random {
    pub fn word(&mut self) -> u64 {
        self.0 = self.0.wrapping_add(0x9e37_79b9_7f4a_7c15);
        let mut z = self.0;
        z = (z ^ (z >> 30)).wrapping_mul(0xbf58_476d_1ce4_e5b9);
        z = (z ^ (z >> 27)).wrapping_mul(0x94d0_49bb_1331_11eb);
        z ^ (z >> 31)
    }

    // A number below the limit.
    pub fn below(&mut self, limit: u64) -> u64 {
        self.word() % limit
    }

    // True in `times` cases of `of`.
    pub fn chance(&mut self, times: u64, of: u64) -> bool {
        self.below(of) < times
    }

    pub fn pick<T: Copy>(&mut self, from: &[T]) -> T {
        from[self.below(from.len() as u64) as usize]
    }

    // A word of random length: 0 to 64 bits.
    pub fn of_any_length(&mut self) -> u64 {
        match self.below(65) {
            0 => 0,
            bits => self.word() >> (64 - bits),
        }
    }

    // A word at most two away from a power of two.
    pub fn near_power(&mut self) -> u64 {
        let power = 1u64 << self.below(64);
        power.wrapping_add(self.below(5)).wrapping_sub(2)
    }
}
