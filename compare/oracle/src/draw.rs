//! Drawing of inputs: the same numbers in every run.

/// Floats at which something special happens.
pub const SPECIAL: [f32; 22] = [
    f32::NAN,
    f32::INFINITY,
    f32::NEG_INFINITY,
    0.0,
    -0.0,
    1.0,
    -1.0,
    f32::MAX,
    f32::MIN,
    f32::MIN_POSITIVE,
    -f32::MIN_POSITIVE,
    f32::from_bits(0x0000_0001),
    f32::from_bits(0x8000_0001),
    f32::from_bits(0x007f_ffff),
    f32::from_bits(0x807f_ffff),
    f32::from_bits(0x0040_0000),
    f32::from_bits(0x7e80_0000), // 2^126
    f32::from_bits(0xfb00_0000), // -2^119
    f32::from_bits(0x0d80_0000), // 2^-100
    f32::from_bits(0x4b80_0000), // 2^24
    f32::from_bits(0x3f80_0001),
    f32::from_bits(0x3f7f_ffff),
];

/// SplitMix64.
pub struct Draw {
    state: u64,
}

impl Draw {
    pub fn new(seed: u64) -> Draw {
        Draw { state: seed }
    }

    pub fn bits(&mut self) -> u64 {
        self.state = self.state.wrapping_add(0x9e37_79b9_7f4a_7c15);
        let mut z = self.state;
        z = (z ^ (z >> 30)).wrapping_mul(0xbf58_476d_1ce4_e5b9);
        z = (z ^ (z >> 27)).wrapping_mul(0x94d0_49bb_1331_11eb);
        z ^ (z >> 31)
    }

    pub fn below(&mut self, n: usize) -> usize {
        ((self.bits() >> 32) as usize * n) >> 32
    }

    /// True in `percent` of 100 draws.
    pub fn chance(&mut self, percent: usize) -> bool {
        self.below(100) < percent
    }

    pub fn pick(&mut self, from: &[f32]) -> f32 {
        from[self.below(from.len())]
    }

    pub fn special(&mut self) -> f32 {
        self.pick(&SPECIAL)
    }

    /// Any of the 2^32 words; a NaN becomes the one NaN.
    pub fn any(&mut self) -> f32 {
        let x = f32::from_bits((self.bits() >> 32) as u32);
        if x.is_nan() {
            f32::NAN
        } else {
            x
        }
    }

    pub fn subnormal(&mut self) -> f32 {
        f32::from_bits((self.bits() >> 32) as u32 & 0x807f_ffff)
    }

    /// From -size to size.
    pub fn within(&mut self, size: f32) -> f32 {
        let unit = (self.bits() >> 40) as f32 / 8_388_608.0 - 1.0;
        unit * size
    }

    /// A multiple of `step` from -n * step to n * step.
    pub fn grid(&mut self, n: usize, step: f32) -> f32 {
        (self.below(2 * n + 1) as f32 - n as f32) * step
    }

    /// x itself, or one of its two neighbours.
    pub fn near(&mut self, x: f32) -> f32 {
        match self.below(4) {
            0 => x.next_up(),
            1 => x.next_down(),
            _ => x,
        }
    }

    /// x or -x.
    pub fn either_sign(&mut self, x: f32) -> f32 {
        if self.chance(50) {
            -x
        } else {
            x
        }
    }

    /// x or one of its neighbours, or their negation.
    pub fn about(&mut self, x: f32) -> f32 {
        let x = self.near(x);
        self.either_sign(x)
    }
}
