//! Random numbers.

/// A small random number generator (splitmix64). The same seed always gives the same numbers.
pub struct Random {
    state: u64,
}

impl Random {
    pub fn new(seed: u64) -> Random {
        Random { state: seed }
    }

    /// A generator of its own for each list of numbers.
    pub fn of(numbers: &[u64]) -> Random {
        let mix = |state: u64, number: &u64| Random::new(state ^ number).next();
        Random::new(numbers.iter().fold(0, mix))
    }

    fn next(&mut self) -> u64 {
        self.state = self.state.wrapping_add(0x9e37_79b9_7f4a_7c15);
        let mut z = self.state;
        z = (z ^ (z >> 30)).wrapping_mul(0xbf58_476d_1ce4_e5b9);
        z = (z ^ (z >> 27)).wrapping_mul(0x94d0_49bb_1331_11eb);
        z ^ (z >> 31)
    }

    /// A number from 0 to `end` − 1.
    pub fn below(&mut self, end: usize) -> usize {
        (self.next() % end as u64) as usize
    }

    /// A number from `first` to `last`.
    pub fn between(&mut self, first: usize, last: usize) -> usize {
        first + self.below(last - first + 1)
    }

    /// True once in so many times.
    pub fn one_in(&mut self, times: usize) -> bool {
        self.below(times) == 0
    }

    /// One of these.
    pub fn pick<T: Copy>(&mut self, from: &[T]) -> T {
        from[self.below(from.len())]
    }

    /// One of these, if there is any.
    pub fn pick_any<T: Copy>(&mut self, from: &[T]) -> Option<T> {
        (!from.is_empty()).then(|| self.pick(from))
    }

    /// One of these, each as often as its weight says.
    pub fn pick_by_weight<T: Copy>(&mut self, from: &[(usize, T)]) -> T {
        let sum: usize = from.iter().map(|(weight, _)| weight).sum();
        let mut left = self.below(sum);
        for &(weight, this) in from {
            if left < weight {
                return this;
            }
            left -= weight;
        }
        unreachable!("the number is below the sum of the weights")
    }

    /// Puts these in a random order.
    pub fn shuffle<T>(&mut self, list: &mut [T]) {
        for at in (1..list.len()).rev() {
            list.swap(at, self.below(at + 1));
        }
    }
}

#[cfg(test)]
mod tests {
    use super::*;

    #[test]
    fn a_seed_gives_its_numbers() {
        let numbers = |mut random: Random| [random.next(), random.next(), random.next()];
        assert_eq!(numbers(Random::new(7)), numbers(Random::new(7)));
        assert_ne!(numbers(Random::of(&[1, 2])), numbers(Random::of(&[2, 1])));
    }

    #[test]
    fn numbers_are_in_range_and_all_come() {
        let mut random = Random::new(1);
        let mut seen = [false; 4];
        for _ in 0..200 {
            seen[random.between(1, 3)] = true;
        }
        assert_eq!(seen, [false, true, true, true]);
        assert_eq!(random.pick_by_weight(&[(0, 'a'), (1, 'b'), (0, 'c')]), 'b');
        assert_eq!(random.pick_any::<u8>(&[]), None);
    }

    #[test]
    fn shuffling_keeps_all() {
        let mut list: Vec<usize> = (0..20).collect();
        Random::new(1).shuffle(&mut list);
        assert!(!list.is_sorted());
        list.sort_unstable();
        assert!(list.into_iter().eq(0..20));
    }
}
