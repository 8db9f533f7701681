//! Sets of letters, and in which order letters were seen. Letters go by numbers from 0 on.

/// A set of letters.
#[derive(Clone, Debug, Default, PartialEq, Eq)]
pub struct Set {
    words: Vec<u64>,
}

impl Set {
    pub fn insert(&mut self, letter: usize) {
        let at = letter / 64;
        if at >= self.words.len() {
            self.words.resize(at + 1, 0);
        }
        self.words[at] |= 1 << (letter % 64);
    }

    pub fn contains(&self, letter: usize) -> bool {
        let word = self.words.get(letter / 64);
        word.is_some_and(|word| word & (1 << (letter % 64)) != 0)
    }

    /// Adds all of the other set.
    pub fn add(&mut self, other: &Set) {
        if self.words.len() < other.words.len() {
            self.words.resize(other.words.len(), 0);
        }
        for (word, other) in self.words.iter_mut().zip(&other.words) {
            *word |= other;
        }
    }

    /// The letters of this set that the other has not.
    pub fn without(&self, other: &Set) -> Set {
        let mut left = self.clone();
        for (word, other) in left.words.iter_mut().zip(&other.words) {
            *word &= !other;
        }
        left
    }

    /// The first letter, if there is one.
    pub fn first(&self) -> Option<usize> {
        self.common(self)
    }

    /// The first letter that both have.
    pub fn common(&self, other: &Set) -> Option<usize> {
        let both = self.words.iter().zip(&other.words).map(|(a, b)| a & b);
        let (at, word) = both.enumerate().find(|&(_, word)| word != 0)?;
        Some(at * 64 + word.trailing_zeros() as usize)
    }
}

impl Extend<usize> for Set {
    fn extend<I: IntoIterator<Item = usize>>(&mut self, letters: I) {
        letters.into_iter().for_each(|letter| self.insert(letter));
    }
}

impl FromIterator<usize> for Set {
    fn from_iter<I: IntoIterator<Item = usize>>(letters: I) -> Set {
        let mut set = Set::default();
        set.extend(letters);
        set
    }
}

/// Which letters were seen behind which.
#[derive(Default)]
pub struct Order {
    /// For each letter those that were seen behind it.
    behind: Vec<Set>,
}

impl Order {
    /// Adds what a text shows, if nothing was seen in the other order before.
    /// Otherwise it gives two letters, as they stand now.
    pub fn add(&mut self, text: &[usize]) -> Result<(), (usize, usize)> {
        let mut ahead = Set::default();
        for &letter in text {
            let before = self.behind.get(letter).and_then(|set| set.common(&ahead));
            if let Some(other) = before {
                return Err((other, letter));
            }
            ahead.insert(letter);
        }
        let count = text.iter().max().map_or(0, |last| last + 1);
        if self.behind.len() < count {
            self.behind.resize_with(count, Set::default);
        }
        let mut rest = Set::default();
        for &letter in text.iter().rev() {
            self.behind[letter].add(&rest);
            rest.insert(letter);
        }
        Ok(())
    }
}

#[cfg(test)]
mod tests {
    use super::*;

    #[test]
    fn sets_have_what_was_put_in() {
        let mut set: Set = [3, 64, 200].into_iter().collect();
        assert!([3, 64, 200].iter().all(|&letter| set.contains(letter)));
        assert!([2, 63, 65, 201, 500]
            .iter()
            .all(|&letter| !set.contains(letter)));
        let other = [64, 200, 300].into_iter().collect();
        assert_eq!(set.common(&other), Some(64));
        assert!(set.without(&other).contains(3));
        assert_eq!(set.without(&other).common(&other), None);
        set.add(&other);
        assert!(set.contains(300));
        assert_eq!(set.first(), Some(3));
        assert_eq!(Set::default().first(), None);
    }

    #[test]
    fn finds_both_orders() {
        let mut order = Order::default();
        assert_eq!(order.add(&[5, 70, 2]), Ok(()));
        assert_eq!(order.add(&[5, 2]), Ok(()));
        assert_eq!(order.add(&[9, 5]), Ok(()));
        // 9 and 2 were never seen together, so either order is as good.
        assert_eq!(order.add(&[2, 9]), Ok(()));
        assert_eq!(order.add(&[2, 1, 5]), Err((2, 5)));
        assert_eq!(order.add(&[2, 70]), Err((2, 70)));
        assert_eq!(order.add(&[9, 2]), Err((9, 2)));
    }
}
