//! A small deterministic source of numbers (splitmix64).

#[derive(Clone, Debug)]
pub struct Rng(u64);

impl Rng {
    /// A source for one list of one kind.
    pub fn for_list(kind: &str, seed: u64) -> Self {
        let mut rng = Self(seed);
        for byte in kind.bytes() {
            rng.0 = rng.draw() ^ u64::from(byte);
        }
        rng
    }

    pub fn draw(&mut self) -> u64 {
        self.0 = self.0.wrapping_add(0x9e37_79b9_7f4a_7c15);
        let mut z = self.0;
        z = (z ^ (z >> 30)).wrapping_mul(0xbf58_476d_1ce4_e5b9);
        z = (z ^ (z >> 27)).wrapping_mul(0x94d0_49bb_1331_11eb);
        z ^ (z >> 31)
    }

    /// A number below `limit`, which is not 0.
    pub fn below(&mut self, limit: usize) -> usize {
        (self.draw() % limit as u64) as usize
    }

    /// A number from `low` to `high`, both included.
    pub fn between(&mut self, low: usize, high: usize) -> usize {
        low + self.below(high - low + 1)
    }

    /// True in `percent` of 100 cases.
    pub fn chance(&mut self, percent: usize) -> bool {
        self.below(100) < percent
    }

    pub fn pick<'a, T>(&mut self, from: &'a [T]) -> &'a T {
        &from[self.below(from.len())]
    }

    /// An entry, by weight.
    pub fn weighted<T: Copy>(&mut self, from: &[(T, usize)]) -> T {
        let total: usize = from.iter().map(|(_, weight)| weight).sum();
        let mut at = self.below(total);
        for (entry, weight) in from {
            if at < *weight {
                return *entry;
            }
            at -= weight;
        }
        unreachable!("the weights sum to the total")
    }
}
