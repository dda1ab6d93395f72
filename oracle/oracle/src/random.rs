// A small seeded generator (splitmix64), so that every run can be had again.

#[derive(Clone, Debug)]
pub struct Random {
    state: u64,
}

impl Random {
    pub fn new(seed: u64) -> Random {
        Random { state: seed }
    }

    /// A generator of its own for part `part` of a run.
    pub fn part(seed: u64, part: u64) -> Random {
        let mut start = Random::new(seed);
        let mixed = start.word() ^ part.wrapping_mul(0xD134_2543_DE82_EF95);
        Random::new(Random::new(mixed).word())
    }

    pub fn word(&mut self) -> u64 {
        self.state = self.state.wrapping_add(0x9E37_79B9_7F4A_7C15);
        let mut z = self.state;
        z = (z ^ (z >> 30)).wrapping_mul(0xBF58_476D_1CE4_E5B9);
        z = (z ^ (z >> 27)).wrapping_mul(0x94D0_49BB_1331_11EB);
        z ^ (z >> 31)
    }

    /// A whole number below n, n above 0.
    pub fn below(&mut self, n: usize) -> usize {
        (((self.word() >> 32) * n as u64) >> 32) as usize
    }

    /// A whole number from low to high, both included.
    pub fn between(&mut self, low: i32, high: i32) -> i32 {
        low + self.below((high - low + 1) as usize) as i32
    }

    /// A number from 0 up to, not including, 1.
    pub fn unit(&mut self) -> f64 {
        (self.word() >> 11) as f64 / (1u64 << 53) as f64
    }

    /// A number within a range.
    pub fn within(&mut self, low: f64, high: f64) -> f64 {
        low + (high - low) * self.unit()
    }

    /// True once in n times.
    pub fn one_in(&mut self, n: usize) -> bool {
        self.below(n) == 0
    }

    pub fn coin(&mut self) -> bool {
        self.word() >> 63 == 1
    }

    /// Any 32-bit pattern as a float.
    pub fn pattern(&mut self) -> f32 {
        f32::from_bits((self.word() >> 32) as u32)
    }

    /// A float of either sign whose exponent is spread evenly from 2^low to 2^high.
    pub fn spread_out(&mut self, low: i32, high: i32) -> f32 {
        let power = 2f64.powi(self.between(low, high));
        let size = (power * (1.0 + self.unit())) as f32;
        if self.coin() {
            -size
        } else {
            size
        }
    }

    /// One of the things given.
    pub fn pick<T: Copy>(&mut self, things: &[T]) -> T {
        things[self.below(things.len())]
    }

    /// Puts a list into a random order.
    pub fn shuffle<T>(&mut self, list: &mut [T]) {
        for i in (1..list.len()).rev() {
            list.swap(i, self.below(i + 1));
        }
    }
}
