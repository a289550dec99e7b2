//! A small seeded generator of numbers (SplitMix64): the same seed gives the same numbers on every
//! machine.

pub struct Rng(u64);

impl Rng {
    /// Each (seed, stream) gives numbers of its own, so that a case never depends on those before.
    pub fn new(seed: u64, stream: u64) -> Self {
        let first = Self(seed).word();
        let mut rng = Self(first ^ stream.wrapping_mul(0xd134_2543_de82_ef95));
        rng.word();
        rng
    }

    pub fn word(&mut self) -> u64 {
        self.0 = self.0.wrapping_add(0x9e37_79b9_7f4a_7c15);
        let mut z = self.0;
        z = (z ^ (z >> 30)).wrapping_mul(0xbf58_476d_1ce4_e5b9);
        z = (z ^ (z >> 27)).wrapping_mul(0x94d0_49bb_1331_11eb);
        z ^ (z >> 31)
    }

    /// Less than `n`, which must not be 0.
    pub fn below(&mut self, n: usize) -> usize {
        (self.word() % n as u64) as usize
    }

    /// From `low` to `high`, both included.
    pub fn between(&mut self, low: usize, high: usize) -> usize {
        low + self.below(high - low + 1)
    }

    /// True so many times in a hundred.
    pub fn chance(&mut self, percent: u32) -> bool {
        self.below(100) < percent as usize
    }

    pub fn pick<'a, T>(&mut self, items: &'a [T]) -> &'a T {
        &items[self.below(items.len())]
    }

    /// A place in `weights`, each as often as its weight says. Some weight must not be 0.
    pub fn weighted(&mut self, weights: &[u32]) -> usize {
        let mut at = self.below(weights.iter().sum::<u32>() as usize) as u32;
        for (i, &weight) in weights.iter().enumerate() {
            if at < weight {
                return i;
            }
            at -= weight;
        }
        unreachable!("less than the sum of the weights")
    }

    pub fn shuffle<T>(&mut self, items: &mut [T]) {
        for i in (1..items.len()).rev() {
            items.swap(i, self.below(i + 1));
        }
    }

    /// `total` shared out among `parts`, each at least 1.
    pub fn split(&mut self, total: usize, parts: usize) -> Vec<usize> {
        let mut sizes = vec![1; parts];
        if parts > 0 {
            for _ in parts..total {
                sizes[self.below(parts)] += 1;
            }
        }
        sizes
    }
}
