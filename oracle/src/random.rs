//! Random numbers that repeat: xorshift64*, from a stated seed.

pub struct Random(u64);

impl Random {
    /// Numbers of their own for each place that asks, whatever the others draw.
    pub fn new(seed: u64, place: &str) -> Random {
        let mixed = place.bytes().fold(seed ^ 0x9e37_79b9_7f4a_7c15, |a, b| (a ^ u64::from(b)).wrapping_mul(0x100_0000_01b3));
        Random(mixed | 1)
    }

    pub fn bits(&mut self) -> u64 {
        self.0 ^= self.0 >> 12;
        self.0 ^= self.0 << 25;
        self.0 ^= self.0 >> 27;
        self.0.wrapping_mul(0x2545_f491_4f6c_dd1d)
    }

    /// A number below n.
    pub fn below(&mut self, n: usize) -> usize {
        ((self.bits() >> 32) * n as u64 >> 32) as usize
    }

    /// A number from low to high, both included.
    pub fn between(&mut self, low: i32, high: i32) -> i32 {
        let span = (i64::from(high) - i64::from(low) + 1) as u64;
        (i64::from(low) + ((u128::from(self.bits()) * u128::from(span)) >> 64) as i64) as i32
    }

    /// Whether something with a chance of one in n happens.
    pub fn one_in(&mut self, n: usize) -> bool {
        self.below(n) == 0
    }

    pub fn pick<T: Copy>(&mut self, from: &[T]) -> T {
        from[self.below(from.len())]
    }

    /// A float from 0 up to 1, 1 excluded.
    pub fn unit(&mut self) -> f64 {
        (self.bits() >> 11) as f64 / (1u64 << 53) as f64
    }

    /// A float from low up to high.
    pub fn within(&mut self, low: f64, high: f64) -> f64 {
        low + (high - low) * self.unit()
    }

    /// A float of any bits.
    pub fn any_float(&mut self) -> f64 {
        f64::from_bits(self.bits())
    }
}
