//! The numbers of a connection, from 1 up.

use std::ops::Range;

/// How many that are not acknowledged may be under way.
const WINDOW: u64 = 16;

const LAST: u64 = u32::MAX as u64;

/// Numbers of messages, in a wider type than they have, so that there is one behind the last.
pub type Numbers = Range<u64>;

/// The end that sends.
#[derive(Default)]
pub struct Sender {
    acknowledged: u64,
    sent: u64,
    total: u64,
}

impl Sender {
    pub fn acknowledged(&self) -> u64 {
        self.acknowledged
    }

    /// Whether there ever was a message with that number.
    pub fn has(&self, number: u32) -> bool {
        (1..=self.total).contains(&number.into())
    }

    /// There is one message more. Gives what goes now, or nothing if there is no number for it.
    pub fn push(&mut self) -> Option<Numbers> {
        if self.total == LAST {
            return None;
        }
        self.total += 1;
        Some(self.send())
    }

    /// All up to that number were taken. Gives what goes now.
    pub fn acknowledge(&mut self, last: u32) -> Numbers {
        let last = last.into();
        if (self.acknowledged + 1..=self.sent).contains(&last) {
            self.acknowledged = last;
        }
        self.send()
    }

    /// What was sent and is not acknowledged.
    pub fn under_way(&self) -> Numbers {
        self.acknowledged + 1..self.sent + 1
    }

    /// One after the other goes, while there is room for it.
    fn send(&mut self) -> Numbers {
        let first = self.sent + 1;
        while self.sent < self.total && self.sent - self.acknowledged < WINDOW {
            self.sent += 1;
        }
        first..self.sent + 1
    }
}

#[cfg(test)]
mod tests {
    use super::*;

    #[test]
    fn no_more_than_sixteen_are_under_way() {
        let mut sender = Sender::default();
        for number in 1..=16 {
            assert_eq!(sender.push(), Some(number..number + 1));
        }
        assert!(sender.push().unwrap().is_empty());
        assert!(sender.push().unwrap().is_empty());
        assert_eq!(sender.under_way(), 1..17);
        assert_eq!(sender.acknowledge(1), 17..18);
        assert!(sender.acknowledge(1).is_empty());
        assert!(sender.acknowledge(18).is_empty());
        assert_eq!(sender.acknowledged(), 1);
        assert_eq!(sender.acknowledge(17), 18..19);
        assert_eq!(sender.under_way(), 18..19);
        assert!(sender.acknowledge(18).is_empty());
        assert!(sender.under_way().is_empty());
    }

    #[test]
    fn the_last_number_is_the_last() {
        let mut sender = Sender {
            acknowledged: LAST - 2,
            sent: LAST - 1,
            total: LAST - 1,
        };
        assert_eq!(sender.push(), Some(LAST..LAST + 1));
        assert_eq!(sender.push(), None);
        assert_eq!(sender.under_way(), LAST - 1..LAST + 1);
        assert!(sender.acknowledge(u32::MAX).is_empty());
        assert!(sender.under_way().is_empty());
        assert_eq!(sender.push(), None);
    }
}
