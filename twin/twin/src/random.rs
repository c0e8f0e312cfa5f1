//! A small xorshift generator, so that a seed repeats a test anywhere.

pub struct Random {
    state: u64,
}

impl Random {
    pub fn new(seed: u64) -> Random {
        // Xorshift stands still at 0 and starts slowly from small seeds.
        let mut random = Random {
            state: (seed ^ 0x9e37_79b9_7f4a_7c15).max(1),
        };
        for _ in 0..16 {
            random.next();
        }
        random
    }

    #[allow(clippy::should_implement_trait)]
    pub fn next(&mut self) -> u64 {
        self.state ^= self.state >> 12;
        self.state ^= self.state << 25;
        self.state ^= self.state >> 27;
        self.state.wrapping_mul(0x2545_f491_4f6c_dd1d)
    }

    /// From 0 up to, not including, `limit`.
    pub fn below(&mut self, limit: u64) -> u64 {
        (self.next() >> 16) % limit
    }

    /// Both ends included.
    pub fn between(&mut self, least: u64, most: u64) -> u64 {
        least + self.below(most - least + 1)
    }

    pub fn percent(&mut self, chance: u64) -> bool {
        self.below(100) < chance
    }

    pub fn pick<T: Copy>(&mut self, from: &[T]) -> T {
        from[self.below(from.len() as u64) as usize]
    }
}

/// The seed a test uses: `TWIN_SEED` if given, otherwise the test's own.
pub fn seed_or(own: u64) -> u64 {
    let given = std::env::var("TWIN_SEED")
        .ok()
        .and_then(|text| text.parse().ok());
    given.unwrap_or(own)
}
