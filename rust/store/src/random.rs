//! The comparison's random numbers, and what rows ask for beyond them.

#[allow(dead_code)]
#[path = "../../compare/src/random.rs"]
mod numbers;

pub use numbers::Random;

impl Random {
    /// A colour.
    pub fn color(&mut self) -> u32 {
        self.word() as u32
    }

    /// A fraction from 0 to 1.
    pub fn unit(&mut self) -> f32 {
        self.below(1 << 24) as f32 / ((1 << 24) - 1) as f32
    }

    /// A float between two.
    pub fn between(&mut self, low: f32, high: f32) -> f32 {
        low + (high - low) * self.unit()
    }

    /// A float that is special in some way.
    pub fn special(&mut self) -> f32 {
        self.one_of(&[
            0.0,
            -0.0,
            1.0,
            -1.0,
            f32::MIN_POSITIVE,
            f32::from_bits(1),
            f32::MAX,
            f32::MIN,
            f32::INFINITY,
            f32::NEG_INFINITY,
            f32::NAN,
            f32::from_bits(0xffc0_0001),
            f32::from_bits(0x7f80_0001),
            9.223_372e18,
            -9.223_372e18,
            1e-4,
            -1e-4,
        ])
    }
}
