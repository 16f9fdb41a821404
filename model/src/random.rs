//! A small seeded stream of numbers (xorshift64*), so that the list is the same wherever it is made.

pub struct Stream(u64);

impl Stream {
    /// The seed may be any number but 0.
    pub fn new(seed: u64) -> Self {
        assert_ne!(seed, 0);
        let mut stream = Stream(seed);
        for _ in 0..8 {
            stream.word();
        }
        stream
    }

    pub fn word(&mut self) -> u32 {
        self.0 ^= self.0 >> 12;
        self.0 ^= self.0 << 25;
        self.0 ^= self.0 >> 27;
        (self.0.wrapping_mul(0x2545_F491_4F6C_DD1D) >> 32) as u32
    }

    /// A number below the bound.
    pub fn below(&mut self, bound: u32) -> u32 {
        self.word() % bound
    }

    /// A number from least to most, both included.
    pub fn between(&mut self, least: i32, most: i32) -> i32 {
        least + self.below((most - least + 1) as u32) as i32
    }

    pub fn pick<T: Copy>(&mut self, from: &[T]) -> T {
        from[self.below(from.len() as u32) as usize]
    }
}
