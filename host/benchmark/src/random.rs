//! Random numbers that are the same in every run.

/// Xorshift with a multiplied output.
pub struct Random(u64);

impl Random {
    pub fn new() -> Random {
        Random(0x9E37_79B9_7F4A_7C15)
    }

    pub fn next(&mut self) -> u64 {
        self.0 ^= self.0 << 13;
        self.0 ^= self.0 >> 7;
        self.0 ^= self.0 << 17;
        self.0.wrapping_mul(0x2545_F491_4F6C_DD1D) >> 16
    }

    pub fn below(&mut self, end: u64) -> u64 {
        self.next() % end
    }

    /// In tenths, from `low` on and below `high`.
    pub fn between(&mut self, low: f32, high: f32) -> f32 {
        let tenths = ((high - low) * 10.0) as u64;
        low + self.below(tenths) as f32 / 10.0
    }
}
