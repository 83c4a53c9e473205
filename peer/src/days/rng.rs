//! A small source of numbers (splitmix64), the same on every machine.

/// The source: a seed gives one row of numbers.
#[derive(Clone, Debug)]
pub struct Rng(u64);

impl Rng {
    /// The row of numbers of one part of a run.
    pub fn new(seed: u64, part: u64, index: u64) -> Rng {
        let mut rng = Rng(seed);
        rng.0 = rng.draw() ^ part.wrapping_mul(0xD6E8_FEB8_6659_FD93);
        rng.0 = rng.draw() ^ index.wrapping_mul(0xA076_1D64_78BD_642F);
        rng.draw();
        rng
    }

    /// Any word.
    pub fn draw(&mut self) -> u64 {
        self.0 = self.0.wrapping_add(0x9E37_79B9_7F4A_7C15);
        let mut z = self.0;
        z = (z ^ (z >> 30)).wrapping_mul(0xBF58_476D_1CE4_E5B9);
        z = (z ^ (z >> 27)).wrapping_mul(0x94D0_49BB_1331_11EB);
        z ^ (z >> 31)
    }

    /// 0 to n - 1; 0 if n is 0.
    pub fn below(&mut self, n: u64) -> u64 {
        self.draw() % n.max(1)
    }

    /// An index below n; 0 if n is 0.
    pub fn index(&mut self, n: usize) -> usize {
        self.below(n as u64) as usize
    }

    /// Low to high, both among them.
    pub fn between(&mut self, low: u64, high: u64) -> u64 {
        low + self.below(high.saturating_sub(low).saturating_add(1))
    }

    /// True so many times in a hundred.
    pub fn chance(&mut self, percent: u64) -> bool {
        self.below(100) < percent
    }

    /// One of these.
    pub fn pick<T: Copy>(&mut self, from: &[T]) -> T {
        from[self.index(from.len())]
    }

    /// A place in this list, as often as its weight says.
    pub fn weighted(&mut self, weights: &[u64]) -> usize {
        let mut at = self.below(weights.iter().sum());
        for (i, &weight) in weights.iter().enumerate() {
            if at < weight {
                return i;
            }
            at -= weight;
        }
        0
    }

    /// 1 to `most`, each length in bits about as often.
    pub fn spread(&mut self, most: u64) -> u64 {
        let bits = self.below(u64::from(64 - most.leading_zeros())) + 1;
        let value = self.draw() >> (64 - bits);
        value.clamp(1, most.max(1))
    }

    /// Puts a list in any order.
    pub fn shuffle<T>(&mut self, list: &mut [T]) {
        for i in (1..list.len()).rev() {
            list.swap(i, self.index(i + 1));
        }
    }
}
