//! A small generator of random numbers, so that a seed gives the same traces and lists everywhere.

/// An xorshift generator with a multiplied output.
pub struct Random(u64);

impl Random {
    /// A generator for a seed. Seeds that are near each other give numbers that are not.
    pub fn new(seed: u64) -> Random {
        let mixed = (seed.wrapping_add(0x9e37_79b9_7f4a_7c15)).wrapping_mul(0xbf58_476d_1ce4_e5b9);
        // An xorshift generator never leaves 0.
        let mut random = Random((mixed ^ mixed >> 31).max(1));
        random.next();
        random
    }

    /// The next 64 bits.
    pub fn next(&mut self) -> u64 {
        self.0 ^= self.0 >> 12;
        self.0 ^= self.0 << 25;
        self.0 ^= self.0 >> 27;
        self.0.wrapping_mul(0x2545_f491_4f6c_dd1d)
    }

    /// A number below a bound that is not 0.
    pub fn below(&mut self, bound: usize) -> usize {
        (((self.next() >> 32) * bound as u64) >> 32) as usize
    }

    /// A number from one to another; each of the two often, so that both are met.
    pub fn between(&mut self, least: usize, most: usize) -> usize {
        match self.below(16) {
            0 => least,
            1 => most,
            _ => least + self.below(most - least + 1),
        }
    }

    /// True once in `times`.
    pub fn once_in(&mut self, times: usize) -> bool {
        self.below(times) == 0
    }

    /// One of the items.
    pub fn pick<T: Copy>(&mut self, items: &[T]) -> T {
        items[self.below(items.len())]
    }

    /// One of the named items, each as often as its weight says.
    pub fn pick_weighted<T: Copy>(&mut self, items: &[(&'static str, usize, T)]) -> (&'static str, T) {
        let mut at = self.below(items.iter().map(|(_, weight, _)| weight).sum());
        for &(name, weight, item) in items {
            match at.checked_sub(weight) {
                Some(rest) => at = rest,
                None => return (name, item),
            }
        }
        unreachable!("the weights add up to more than was picked")
    }

    /// Any byte.
    pub fn byte(&mut self) -> u8 {
        self.next().to_be_bytes()[0]
    }
}
