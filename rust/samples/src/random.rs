//! Random numbers that are the same in every run: splitmix64.

/// A generator of random numbers.
pub struct Random(u64);

impl Random {
    /// The generator with this seed.
    pub fn new(seed: u64) -> Self {
        Random(seed)
    }

    /// A number of 64 bits.
    pub fn bits(&mut self) -> u64 {
        self.0 = self.0.wrapping_add(0x9e37_79b9_7f4a_7c15);
        let mut z = self.0;
        z = (z ^ (z >> 30)).wrapping_mul(0xbf58_476d_1ce4_e5b9);
        z = (z ^ (z >> 27)).wrapping_mul(0x94d0_49bb_1331_11eb);
        z ^ (z >> 31)
    }

    /// A byte.
    pub fn byte(&mut self) -> u8 {
        self.bits() as u8
    }

    /// A number below a limit, which is not 0.
    pub fn below(&mut self, limit: usize) -> usize {
        (self.bits() % limit as u64) as usize
    }

    /// A number from the first to the last, both included.
    pub fn between(&mut self, first: usize, last: usize) -> usize {
        first + self.below(last - first + 1)
    }

    /// True in this many of a hundred cases.
    pub fn percent(&mut self, chance: usize) -> bool {
        self.below(100) < chance
    }

    /// One of the items, of which there are some.
    pub fn pick<T: Copy>(&mut self, items: &[T]) -> T {
        items[self.below(items.len())]
    }

    /// The literal of a variable, with a random sign.
    pub fn signed(&mut self, variable: i8) -> i8 {
        if self.below(2) == 0 {
            variable
        } else {
            -variable
        }
    }

    /// So many different numbers from 1 to the limit, in random order.
    pub fn some_of(&mut self, count: usize, limit: usize) -> Vec<i8> {
        self.draw(count, (1..=limit as i8).collect())
    }

    /// The items in random order.
    pub fn shuffled<T>(&mut self, items: Vec<T>) -> Vec<T> {
        self.draw(items.len(), items)
    }

    /// So many of the items, in random order.
    fn draw<T>(&mut self, count: usize, mut left: Vec<T>) -> Vec<T> {
        (0..count)
            .map(|_| left.swap_remove(self.below(left.len())))
            .collect()
    }
}

#[cfg(test)]
mod tests {
    use super::*;

    #[test]
    fn the_numbers_are_those_of_splitmix64() {
        let mut random = Random::new(1_234_567);
        let numbers = [(); 5].map(|()| random.bits());
        assert_eq!(
            numbers,
            [
                6_457_827_717_110_365_317,
                3_203_168_211_198_807_973,
                9_817_491_932_198_370_423,
                4_593_380_528_125_082_431,
                16_408_922_859_458_223_821,
            ]
        );
    }

    #[test]
    fn some_of_gives_different_numbers() {
        let mut numbers = Random::new(1).some_of(48, 48);
        numbers.sort();
        assert!(numbers.into_iter().eq(1..=48));
    }
}
