//! Numbers that look random and are the same in every run: a linear congruential generator, its upper bits.

pub struct Random {
    state: u64,
}

impl Random {
    pub fn of(seed: u32) -> Random {
        let mut random = Random {
            state: u64::from(seed),
        };
        random.below(1);
        random
    }

    /// A number below `bound`, which is not 0.
    pub fn below(&mut self, bound: u64) -> u64 {
        self.state = self
            .state
            .wrapping_mul(6_364_136_223_846_793_005)
            .wrapping_add(1_442_695_040_888_963_407);
        (self.state >> 33) % bound
    }

    /// So many numbers below `bound`.
    pub fn some_below(&mut self, count: usize, bound: u64) -> Vec<u64> {
        (0..count).map(|_| self.below(bound)).collect()
    }

    pub fn flag(&mut self) -> bool {
        self.below(2) == 1
    }

    pub fn one_of<T: Copy>(&mut self, list: &[T]) -> T {
        list[self.below(list.len() as u64) as usize]
    }
}
