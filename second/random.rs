//! Numbers that look drawn by lot and are the same on every machine.
//!
//! The generator is splitmix64. Each case has a generator of its own, made
//! from the seed and the number of the case, so that a case doesn't depend on
//! how many numbers the cases before it used.

pub struct Random {
    state: u64,
}

impl Random {
    pub fn new(seed: u64) -> Random {
        Random { state: seed }
    }

    /// The generator for the case of this number.
    pub fn for_case(seed: u64, number: u64) -> Random {
        let of_seed = Random::new(seed).next();
        let of_number = Random::new(number).next();
        Random::new(of_seed ^ of_number.rotate_left(17))
    }

    pub fn next(&mut self) -> u64 {
        self.state = self.state.wrapping_add(0x9E37_79B9_7F4A_7C15);
        let mut mixed = self.state;
        mixed = (mixed ^ (mixed >> 30)).wrapping_mul(0xBF58_476D_1CE4_E5B9);
        mixed = (mixed ^ (mixed >> 27)).wrapping_mul(0x94D0_49BB_1331_11EB);
        mixed ^ (mixed >> 31)
    }

    /// A number from 0 to `limit` - 1.
    pub fn below(&mut self, limit: usize) -> usize {
        (self.next() % limit as u64) as usize
    }

    /// A number from `low` to `high`, both included.
    pub fn between(&mut self, low: usize, high: usize) -> usize {
        low + self.below(high - low + 1)
    }

    /// A byte from 1 to `high`.
    pub fn number(&mut self, high: u8) -> u8 {
        self.between(1, usize::from(high)) as u8
    }

    pub fn byte(&mut self) -> u8 {
        self.next() as u8
    }

    /// True once in so many draws.
    pub fn once_in(&mut self, draws: usize) -> bool {
        self.below(draws) == 0
    }

    pub fn pick<T: Copy>(&mut self, choices: &[T]) -> T {
        choices[self.below(choices.len())]
    }

    pub fn shuffle<T>(&mut self, items: &mut [T]) {
        for last in (1..items.len()).rev() {
            items.swap(last, self.below(last + 1));
        }
    }
}
