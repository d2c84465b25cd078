//! A small deterministic source of random numbers for made inputs.

/// The generator known as SplitMix64: the same seed gives the same numbers.
#[derive(Clone, Debug)]
pub struct Random {
    state: u64,
}

impl Random {
    /// A source whose numbers depend on the seed alone.
    pub fn new(seed: u64) -> Random {
        Random { state: seed }
    }

    /// The next number, any of 64 bits.
    pub fn next_number(&mut self) -> u64 {
        self.state = self.state.wrapping_add(0x9E37_79B9_7F4A_7C15);
        let mut mixed = self.state;
        mixed = (mixed ^ (mixed >> 30)).wrapping_mul(0xBF58_476D_1CE4_E5B9);
        mixed = (mixed ^ (mixed >> 27)).wrapping_mul(0x94D0_49BB_1331_11EB);
        mixed ^ (mixed >> 31)
    }

    /// A number from 0 to `bound` - 1; 0 where `bound` is 0.
    pub fn below(&mut self, bound: u64) -> u64 {
        if bound == 0 {
            return 0;
        }
        self.next_number() % bound
    }

    /// A number from `least` to `most`, both included; `least` where `most` is less.
    pub fn between(&mut self, least: i64, most: i64) -> i64 {
        if most <= least {
            return least;
        }
        let width = (i128::from(most) - i128::from(least) + 1) as u128;
        let offset = u128::from(self.next_number()) % width;
        (i128::from(least) + offset as i128) as i64
    }

    /// A byte.
    pub fn byte(&mut self) -> u8 {
        self.next_number() as u8
    }

    /// Yes once in `times` on average; never where `times` is 0.
    pub fn one_in(&mut self, times: u64) -> bool {
        times != 0 && self.below(times) == 0
    }

    /// Puts the elements of a list into a random order.
    pub fn shuffle<T>(&mut self, list: &mut [T]) {
        for unsettled in (1..list.len()).rev() {
            list.swap(unsettled, self.below(unsettled as u64 + 1) as usize);
        }
    }
}

#[cfg(test)]
mod tests {
    use super::*;

    #[test]
    fn the_same_seed_gives_the_same_numbers() {
        let mut first = Random::new(7);
        let mut second = Random::new(7);
        let mut other = Random::new(8);
        let numbers: Vec<u64> = (0..10).map(|_| first.next_number()).collect();
        let again: Vec<u64> = (0..10).map(|_| second.next_number()).collect();
        let others: Vec<u64> = (0..10).map(|_| other.next_number()).collect();
        assert_eq!(numbers, again);
        assert_ne!(numbers, others);
    }

    #[test]
    fn the_first_numbers_of_seed_0_are_those_of_splitmix64() {
        let mut random = Random::new(0);
        assert_eq!(random.next_number(), 0xE220_A839_7B1D_CDAF);
        assert_eq!(random.next_number(), 0x6E78_9E6A_A1B9_65F4);
    }

    #[test]
    fn numbers_stay_within_their_bounds() {
        let mut random = Random::new(1);
        let mut seen = [false; 5];
        for _ in 0..200 {
            let number = random.between(-2, 2);
            seen[(number + 2) as usize] = true;
            assert!(random.below(3) < 3);
        }
        assert_eq!(seen, [true; 5]);
        assert_eq!(random.between(4, 4), 4);
        assert_eq!(random.between(4, -4), 4);
        assert_eq!(random.below(0), 0);
        random.between(i64::MIN, i64::MAX);
    }

    #[test]
    fn every_order_comes_up() {
        let mut random = Random::new(2);
        let mut orders = std::collections::BTreeSet::new();
        for _ in 0..300 {
            let mut list = [1, 2, 3, 4];
            random.shuffle(&mut list);
            orders.insert(list);
        }
        assert_eq!(orders.len(), 24);
        assert!(orders.iter().all(|list| list.iter().sum::<i32>() == 10));
        random.shuffle::<u8>(&mut []);
    }
}
