//! Random numbers from a seed, the same on every machine.

use std::collections::BTreeSet;

/// A xorshift generator.
pub struct Random(u64);

impl Random {
    pub fn new(seed: u64) -> Random {
        Random(seed.max(1))
    }

    fn next(&mut self) -> u64 {
        self.0 ^= self.0 << 13;
        self.0 ^= self.0 >> 7;
        self.0 ^= self.0 << 17;
        self.0
    }

    /// A number below the bound.
    pub fn below(&mut self, bound: u64) -> u64 {
        (self.next() >> 11) % bound
    }

    pub fn pick<T: Copy>(&mut self, from: &[T]) -> T {
        from[self.below(from.len() as u64) as usize]
    }

    /// So many numbers below the bound, by rising number, none of them in `but`.
    pub fn numbers(&mut self, count: usize, bound: u64, but: &BTreeSet<u64>) -> BTreeSet<u64> {
        let mut set = BTreeSet::new();
        while set.len() < count {
            let n = self.below(bound);
            if !but.contains(&n) {
                set.insert(n);
            }
        }
        set
    }
}
