//! A small seeded generator of numbers (splitmix64), so that every run can be repeated.

#[derive(Clone)]
pub struct Random {
    state: u64,
}

impl Random {
    pub fn new(seed: u64) -> Random {
        Random { state: seed }
    }

    /// A generator for one case alone: case `index` is the same whatever was generated before.
    pub fn for_case(seed: u64, index: u64) -> Random {
        let mut mixer = Random::new(seed);
        let start = mixer.number() ^ index.wrapping_mul(0xD134_2543_DE82_EF95);
        Random::new(Random::new(start).number())
    }

    pub fn number(&mut self) -> u64 {
        self.state = self.state.wrapping_add(0x9E37_79B9_7F4A_7C15);
        let mut mixed = self.state;
        mixed = (mixed ^ (mixed >> 30)).wrapping_mul(0xBF58_476D_1CE4_E5B9);
        mixed = (mixed ^ (mixed >> 27)).wrapping_mul(0x94D0_49BB_1331_11EB);
        mixed ^ (mixed >> 31)
    }

    /// A number below `limit`, or 0 if the limit is 0.
    pub fn below(&mut self, limit: usize) -> usize {
        if limit == 0 {
            0
        } else {
            (self.number() % limit as u64) as usize
        }
    }

    /// A number from `first` to `last`, both included.
    pub fn between(&mut self, first: u64, last: u64) -> u64 {
        first + self.number() % (last - first + 1)
    }

    /// True in about `percent` of a hundred calls.
    pub fn chance(&mut self, percent: u64) -> bool {
        self.number() % 100 < percent
    }

    pub fn byte(&mut self) -> u8 {
        self.number() as u8
    }

    /// One of the given things, each as likely as the others.
    pub fn pick<'a, T: ?Sized>(&mut self, things: &[&'a T]) -> &'a T {
        things[self.below(things.len())]
    }

    /// One of the given values, each as likely as the others.
    pub fn pick_value<T: Copy>(&mut self, values: &[T]) -> T {
        values[self.below(values.len())]
    }

    /// The place of one of the weights, as often as its share of their sum.
    pub fn weighted(&mut self, weights: &[u64]) -> usize {
        let mut ticket = self.number() % weights.iter().sum::<u64>();
        for (place, &weight) in weights.iter().enumerate() {
            if ticket < weight {
                return place;
            }
            ticket -= weight;
        }
        unreachable!("the ticket is below the sum of the weights")
    }

    pub fn fill(&mut self, bytes: &mut [u8]) {
        for chunk in bytes.chunks_mut(8) {
            let random = self.number().to_le_bytes();
            chunk.copy_from_slice(&random[..chunk.len()]);
        }
    }
}
