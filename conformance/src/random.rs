//! Pseudo-random numbers (splitmix64). A seed and a request's number repeat the request.

pub struct Random {
    state: u64,
}

/// The finishing step of splitmix64.
fn mix(bits: u64) -> u64 {
    let bits = (bits ^ (bits >> 30)).wrapping_mul(0xbf58_476d_1ce4_e5b9);
    let bits = (bits ^ (bits >> 27)).wrapping_mul(0x94d0_49bb_1331_11eb);
    bits ^ (bits >> 31)
}

impl Random {
    /// The stream of one request.
    pub fn new(seed: u64, number: u64) -> Random {
        let own = mix(number.wrapping_add(0x1234_5678_9abc_def1));
        Random {
            state: mix(mix(seed) ^ own),
        }
    }

    /// The next 64 bits.
    pub fn bits(&mut self) -> u64 {
        self.state = self.state.wrapping_add(0x9e37_79b9_7f4a_7c15);
        mix(self.state)
    }

    /// A number below `bound`, which is not 0.
    pub fn below(&mut self, bound: usize) -> usize {
        (self.bits() % bound as u64) as usize
    }

    /// A number from `low` to `high`, both included.
    pub fn between(&mut self, low: usize, high: usize) -> usize {
        low + self.below(high - low + 1)
    }

    /// True in so many of a hundred cases.
    pub fn chance(&mut self, percent: usize) -> bool {
        self.below(100) < percent
    }

    pub fn byte(&mut self) -> u8 {
        self.bits() as u8
    }

    /// One of the items; there is at least one.
    pub fn pick<T: Copy>(&mut self, items: &[T]) -> T {
        items[self.below(items.len())]
    }

    /// One of the items, each as often as its weight says; some weight is not 0.
    pub fn weighted<T: Copy>(&mut self, items: &[(usize, T)]) -> T {
        let total = items.iter().map(|item| item.0).sum();
        let mut left = self.below(total);
        for &(weight, item) in items {
            if left < weight {
                return item;
            }
            left -= weight;
        }
        unreachable!("the weights sum to the total")
    }

    /// A word: small, near 2^32, or any.
    pub fn word(&mut self) -> u32 {
        match self.below(4) {
            0 | 1 => self.below(4) as u32,
            2 => (self.below(4) as u32).wrapping_neg(),
            _ => self.bits() as u32,
        }
    }
}
