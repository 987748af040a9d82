//! A small generator of numbers from a seed (splitmix64): the same seed gives the same routines.

pub struct Rng {
    state: u64,
}

impl Rng {
    pub fn new(seed: u64) -> Self {
        Self { state: seed }
    }

    /// The generator of routine `number` under `seed`, so that any one routine can be made alone.
    pub fn of(seed: u64, number: u64) -> Self {
        let mut rng = Self::new(seed);
        rng.state = rng.word() ^ number.wrapping_mul(0xd134_2543_de82_ef95);
        rng
    }

    pub fn word(&mut self) -> u64 {
        self.state = self.state.wrapping_add(0x9e37_79b9_7f4a_7c15);
        let mut z = self.state;
        z = (z ^ (z >> 30)).wrapping_mul(0xbf58_476d_1ce4_e5b9);
        z = (z ^ (z >> 27)).wrapping_mul(0x94d0_49bb_1331_11eb);
        z ^ (z >> 31)
    }

    /// A number below `limit`, which is not 0.
    pub fn below(&mut self, limit: usize) -> usize {
        ((u128::from(self.word()) * limit as u128) >> 64) as usize
    }

    /// A number from `low` to `high`, both met.
    pub fn within(&mut self, low: usize, high: usize) -> usize {
        low + self.below(high - low + 1)
    }

    /// True in `percent` of a hundred cases.
    pub fn chance(&mut self, percent: usize) -> bool {
        self.below(100) < percent
    }

    pub fn pick<T: Copy>(&mut self, from: &[T]) -> T {
        from[self.below(from.len())]
    }

    /// One of `from`, the last ones more often.
    pub fn pick_late<T: Copy>(&mut self, from: &[T]) -> T {
        let window = if self.chance(70) { from.len().min(8) } else { from.len() };
        from[from.len() - 1 - self.below(window)]
    }

    /// One of `from`, or nothing where there is none.
    pub fn pick_some<T: Copy>(&mut self, from: &[T]) -> Option<T> {
        (!from.is_empty()).then(|| self.pick(from))
    }

    /// A number without a bound: mostly small, at times with every bit free.
    pub fn number(&mut self) -> u32 {
        match self.below(8) {
            0 => self.word() as u32,
            1 => u32::MAX,
            _ => self.below(10) as u32,
        }
    }
}

#[cfg(test)]
mod tests {
    use super::*;

    #[test]
    fn one_seed_gives_one_row_of_numbers() {
        let row = |seed, number| -> Vec<u64> {
            let mut rng = Rng::of(seed, number);
            (0..4).map(|_| rng.word()).collect()
        };
        assert_eq!(row(1, 2), row(1, 2));
        assert_ne!(row(1, 2), row(1, 3));
        assert_ne!(row(1, 2), row(2, 2));
    }

    #[test]
    fn bounds_are_met_and_kept() {
        let mut rng = Rng::new(7);
        let seen: Vec<usize> = (0..1000).map(|_| rng.within(3, 5)).collect();
        assert!((3..=5).all(|n| seen.contains(&n)));
        assert!(seen.iter().all(|n| (3..=5).contains(n)));
    }
}
