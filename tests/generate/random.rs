//! Numbers that look like chance and are the same each time.

/// A generator (splitmix64). Equal seeds give equal numbers.
pub struct Random {
    state: u64,
}

impl Random {
    pub fn new(seed: u64) -> Random {
        Random { state: seed }
    }

    pub fn number(&mut self) -> u64 {
        self.state = self.state.wrapping_add(0x9e37_79b9_7f4a_7c15);
        let mixed = (self.state ^ self.state >> 30).wrapping_mul(0xbf58_476d_1ce4_e5b9);
        let mixed = (mixed ^ mixed >> 27).wrapping_mul(0x94d0_49bb_1331_11eb);
        mixed ^ mixed >> 31
    }

    /// A number below `limit`, which is not 0.
    pub fn below(&mut self, limit: usize) -> usize {
        (self.number() % limit as u64) as usize
    }

    /// A number from 0 to `last`.
    pub fn up_to(&mut self, last: u128) -> u128 {
        let any = (self.number() as u128) << 64 | self.number() as u128;
        match last.checked_add(1) {
            Some(limit) => any % limit,
            None => any,
        }
    }

    /// A number from 0 to `last` that is more often small, or just below a power of two.
    pub fn skewed(&mut self, last: u128) -> u128 {
        let bits = u128::BITS - last.leading_zeros();
        let some_bits = self.below(bits.max(1) as usize);
        let number = match self.below(6) {
            0 => 0,
            1 => 1,
            2 => self.up_to(9),
            3 => (1 << some_bits) - 1,
            4 => self.up_to(last >> some_bits),
            _ => self.up_to(last),
        };
        number.min(last)
    }

    /// True once in so many times.
    pub fn once_in(&mut self, times: usize) -> bool {
        self.below(times) == 0
    }

    pub fn pick<T: Copy>(&mut self, from: &[T]) -> T {
        from[self.below(from.len())]
    }

    /// One of these, each as often as its weight says.
    pub fn weighted<T: Copy>(&mut self, from: &[(usize, T)]) -> T {
        let mut left = self.below(from.iter().map(|(weight, _)| weight).sum());
        for &(weight, choice) in from {
            if left < weight {
                return choice;
            }
            left -= weight;
        }
        unreachable!("the weights add up")
    }

    pub fn octets(&mut self, count: usize) -> Vec<u8> {
        (0..count).map(|_| self.number() as u8).collect()
    }
}
