//! Numbers by chance, the same for the same seed (splitmix64).

/// A source of numbers.
#[derive(Clone, Debug)]
pub struct Chance(u64);

impl Chance {
    /// The source of one run of a seed.
    pub fn of_run(seed: u64, run: u64) -> Chance {
        let mut first = Chance(seed);
        let mut second = Chance(first.next() ^ run);
        Chance(second.next())
    }

    /// The source of a seed.
    pub fn of(seed: u64) -> Chance {
        Chance(seed)
    }

    /// Any number.
    pub fn next(&mut self) -> u64 {
        self.0 = self.0.wrapping_add(0x9E37_79B9_7F4A_7C15);
        let mut mixed = self.0;
        mixed = (mixed ^ (mixed >> 30)).wrapping_mul(0xBF58_476D_1CE4_E5B9);
        mixed = (mixed ^ (mixed >> 27)).wrapping_mul(0x94D0_49BB_1331_11EB);
        mixed ^ (mixed >> 31)
    }

    /// A number below the limit, which isn't 0.
    pub fn below(&mut self, limit: u64) -> u64 {
        ((u128::from(self.next()) * u128::from(limit)) >> 64) as u64
    }

    /// An index below the limit, which isn't 0.
    pub fn index(&mut self, limit: usize) -> usize {
        self.below(limit as u64) as usize
    }

    /// A number from `low` to `high`, both included; `low` where they stand the wrong way.
    pub fn within(&mut self, low: u64, high: u64) -> u64 {
        match high.saturating_sub(low).checked_add(1) {
            Some(count) => low + self.below(count),
            None => self.next(),
        }
    }

    /// Once in so many times.
    pub fn one_in(&mut self, times: u64) -> bool {
        self.below(times) == 0
    }

    /// One of these.
    pub fn pick<T: Copy>(&mut self, from: &[T]) -> T {
        from[self.index(from.len())]
    }

    /// A number of these weights' positions, the heavier the more often; one isn't 0.
    pub fn weighted(&mut self, weights: &[u64]) -> usize {
        let mut left = self.below(weights.iter().sum());
        for (number, &weight) in weights.iter().enumerate() {
            if left < weight {
                return number;
            }
            left -= weight;
        }
        0
    }

    /// Fills a table with any numbers.
    pub fn fill(&mut self, table: &mut [u64]) {
        table.fill_with(|| self.next());
    }
}

/// So many bytes by chance, the same for the same seed.
pub fn bytes(length: usize, seed: u64) -> Vec<u8> {
    let mut chance = Chance::of(seed);
    let mut filled = Vec::with_capacity(length + 8);
    while filled.len() < length {
        filled.extend(chance.next().to_le_bytes());
    }
    filled.truncate(length);
    filled
}
