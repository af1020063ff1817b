// Random floats of several distributions, the same in every run (xorshift64*).
pub struct Random(u64);

impl Random {
    pub fn new(seed: u64) -> Random {
        Random(seed * 2 + 0x9e37_79b9_7f4a_7c15)
    }

    pub fn word(&mut self) -> u32 {
        self.0 ^= self.0 >> 12;
        self.0 ^= self.0 << 25;
        self.0 ^= self.0 >> 27;
        (self.0.wrapping_mul(0x2545_f491_4f6c_dd1d) >> 32) as u32
    }

    // Evenly between low and high.
    pub fn between(&mut self, low: f32, high: f32) -> f32 {
        let part = self.word() as f64 / 2f64.powi(32);
        (low as f64 + (high as f64 - low as f64) * part) as f32
    }

    // Above zero, every exponent from 2^low to 2^high as often as any other.
    pub fn exponents(&mut self, low: i32, high: i32) -> f32 {
        let field = (low + 127) as u32 + self.word() % (high - low) as u32;
        f32::from_bits(field << 23 | self.word() >> 9)
    }
}
