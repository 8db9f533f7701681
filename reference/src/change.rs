//! Changes of a text, and what one becomes when another was done first.

use crate::refusal::Refusal;

/// The highest number that a letter can have.
pub const LAST_LETTER: u32 = 1_114_111;

/// What a client does to its own text. Letters are given by their numbers.
#[derive(Clone, Copy, Debug, PartialEq, Eq)]
pub enum Action {
    Insert { place: u32, letter: u32 },
    Delete { place: u32 },
}

/// A change of a text, by what it leaves alone.
/// It keeps so many letters `ahead`, does one thing, and keeps so many letters `behind`.
#[derive(Clone, Copy, Debug, PartialEq, Eq)]
pub struct Change {
    /// The site of the client that made it.
    pub site: u8,
    pub ahead: i64,
    pub middle: Middle,
    /// Below zero if the change does not fit the text.
    pub behind: i64,
}

/// What a change does between the letters that it keeps.
#[derive(Clone, Copy, Debug, PartialEq, Eq)]
pub enum Middle {
    /// Puts in the letter with this number.
    Put(u32),
    /// Drops one letter.
    Drop,
    /// Does nothing. All letters are then counted as kept ahead.
    Keep,
}

impl Change {
    /// What an action changes in a text of so many letters.
    pub fn new(site: u8, action: Action, length: i64) -> Change {
        let (place, middle, dropped) = match action {
            Action::Insert { place, letter } => (place, Middle::Put(letter), 0),
            Action::Delete { place } => (place, Middle::Drop, 1),
        };
        let ahead = i64::from(place);
        Change {
            site,
            ahead,
            middle,
            behind: length - ahead - dropped,
        }
    }

    /// The change that keeps all of a text of so many letters.
    pub fn keep(site: u8, length: i64) -> Change {
        Change {
            site,
            ahead: length,
            middle: Middle::Keep,
            behind: 0,
        }
    }

    /// How many letters the text has before it.
    pub fn before(self) -> i64 {
        self.ahead + self.dropped() + self.behind
    }

    /// How many letters the text has after it.
    pub fn after(self) -> i64 {
        self.ahead + self.put() + self.behind
    }

    fn put(self) -> i64 {
        i64::from(matches!(self.middle, Middle::Put(_)))
    }

    fn dropped(self) -> i64 {
        i64::from(self.middle == Middle::Drop)
    }

    /// What it becomes when `other` was done first. Both must be changes of one text.
    /// If its middle lies in what `other` keeps ahead, as many letters as before are ahead of it;
    /// if it lies in what `other` keeps behind, as many as before are behind it.
    pub fn past(self, other: Change) -> Change {
        assert!(self.before() == other.before(), "both are of one text");
        if self.middle == Middle::Keep {
            return Change::keep(self.site, other.after());
        }
        let growth = other.after() - other.before();
        let is_ahead = self.ahead + self.dropped() <= other.ahead;
        let is_behind = self.behind + self.dropped() <= other.behind;
        match (is_ahead, is_behind) {
            // Two letters are put in at one place, and the one of the lower site goes first.
            (true, true) if other.site < self.site => self.grown_ahead(growth),
            (true, _) => self.grown_behind(growth),
            (false, true) => self.grown_ahead(growth),
            // The letter that it drops is gone.
            (false, false) => Change::keep(self.site, other.after()),
        }
    }

    fn grown_ahead(self, growth: i64) -> Change {
        let ahead = self.ahead + growth;
        Change { ahead, ..self }
    }

    fn grown_behind(self, growth: i64) -> Change {
        let behind = self.behind + growth;
        Change { behind, ..self }
    }

    /// Whether its letter is one, if it puts one in, and whether it fits the text.
    pub fn check(self) -> Result<(), Refusal> {
        match self.middle {
            Middle::Put(letter) if !(1..=LAST_LETTER).contains(&letter) => Err(Refusal::Letter),
            _ if self.behind < 0 => Err(Refusal::Place),
            _ => Ok(()),
        }
    }

    /// Whether there is room for what it puts in, in a text that may have so many letters.
    pub fn check_room(self, most: i64) -> Result<(), Refusal> {
        match self.middle {
            Middle::Put(_) if self.before() >= most => Err(Refusal::Full),
            _ => Ok(()),
        }
    }
}

#[cfg(test)]
pub mod tests {
    use super::*;
    use crate::text::Text;

    pub fn insert(place: u32, letter: char) -> Action {
        let letter = u32::from(letter);
        Action::Insert { place, letter }
    }

    pub fn delete(place: u32) -> Action {
        Action::Delete { place }
    }

    /// Every change of `site` that fits a text of `length` letters.
    pub fn all_changes(site: u8, length: i64) -> Vec<Change> {
        let letter = char::from(b'a' + site);
        let places = || 0..=u32::try_from(length).unwrap();
        let inserts = places().map(|place| insert(place, letter));
        let deletes = places().map(delete);
        let actions = inserts.chain(deletes);
        let mut all: Vec<Change> = actions
            .map(|action| Change::new(site, action, length))
            .filter(|change| change.check().is_ok())
            .collect();
        all.push(Change::keep(site, length));
        all
    }

    /// Every text of up to three letters, each letter being x, y or z.
    pub fn all_texts() -> Vec<Text> {
        let mut all = vec![String::new()];
        let mut longest = all.clone();
        for _ in 0..3 {
            let longer = |text: &String| ["x", "y", "z"].map(|letter| text.clone() + letter);
            longest = longest.iter().flat_map(longer).collect();
            all.extend(longest.clone());
        }
        assert_eq!(all.len(), 1 + 3 + 9 + 27);
        all.iter().map(|text| Text::of(text, 0)).collect()
    }

    /// The text after these changes, all of which must fit.
    pub fn after(text: &Text, changes: &[Change]) -> Text {
        let mut text = text.clone();
        for &change in changes {
            assert_eq!(change.check(), Ok(()), "{change:?} on {text:?}");
            text.apply(change);
        }
        text
    }

    /// Every cell, as it is in docs/PROTOCOL.md, but for the places that do not go up any more.
    /// Here a place has 64 bits and always goes up; no operation that fits a text comes near to that.
    #[test]
    fn every_cell_of_the_table() {
        const LENGTH: i64 = 9;
        /// The site and the action, or nothing.
        type Operation = (u8, Option<Action>);
        let insert = |site, place| -> Operation { (site, Some(insert(place, 'a'))) };
        let delete = |site, place| -> Operation { (site, Some(delete(place))) };
        let nothing = |site| -> Operation { (site, None) };
        // What a is, what b is, what a becomes.
        let table = [
            // insertion past insertion
            (insert(1, 5), insert(2, 4), insert(1, 6)),
            (insert(1, 5), insert(0, 4), insert(1, 6)),
            (insert(1, 5), insert(0, 5), insert(1, 6)),
            (insert(1, 5), insert(2, 5), insert(1, 5)),
            (insert(1, 5), insert(0, 6), insert(1, 5)),
            (insert(1, 5), insert(2, 6), insert(1, 5)),
            // insertion past deletion
            (insert(1, 5), delete(0, 4), insert(1, 4)),
            (insert(1, 5), delete(0, 5), insert(1, 5)),
            (insert(1, 5), delete(2, 5), insert(1, 5)),
            (insert(1, 5), delete(0, 6), insert(1, 5)),
            // deletion past insertion
            (delete(1, 5), insert(0, 4), delete(1, 6)),
            (delete(1, 5), insert(0, 5), delete(1, 6)),
            (delete(1, 5), insert(2, 5), delete(1, 6)),
            (delete(1, 5), insert(0, 6), delete(1, 5)),
            // deletion past deletion
            (delete(1, 5), delete(0, 4), delete(1, 4)),
            (delete(1, 5), delete(0, 5), nothing(1)),
            (delete(1, 5), delete(2, 5), nothing(1)),
            (delete(1, 5), delete(0, 6), delete(1, 5)),
            // nothing on either side
            (nothing(1), insert(0, 0), nothing(1)),
            (nothing(1), insert(0, 9), nothing(1)),
            (nothing(1), insert(2, 9), nothing(1)),
            (nothing(1), delete(0, 0), nothing(1)),
            (nothing(1), delete(0, 8), nothing(1)),
            (nothing(1), nothing(0), nothing(1)),
            (insert(1, 0), nothing(0), insert(1, 0)),
            (insert(1, 5), nothing(0), insert(1, 5)),
            (insert(1, 9), nothing(0), insert(1, 9)),
            (delete(1, 0), nothing(0), delete(1, 0)),
            (delete(1, 5), nothing(0), delete(1, 5)),
            (delete(1, 8), nothing(0), delete(1, 8)),
            // the ends of the text
            (insert(1, 0), insert(0, 0), insert(1, 1)),
            (insert(1, 0), insert(2, 0), insert(1, 0)),
            (insert(1, 9), insert(0, 9), insert(1, 10)),
            (insert(1, 9), insert(2, 9), insert(1, 9)),
            (insert(1, 0), delete(0, 0), insert(1, 0)),
            (insert(1, 9), delete(0, 8), insert(1, 8)),
            (delete(1, 8), insert(0, 9), delete(1, 8)),
            (delete(1, 8), delete(0, 8), nothing(1)),
            // what does not fit
            (insert(1, 10), insert(0, 9), insert(1, 11)),
            (insert(1, 10), insert(2, 0), insert(1, 11)),
            (insert(1, 10), delete(2, 8), insert(1, 9)),
            (insert(1, 10), nothing(0), insert(1, 10)),
            (delete(1, 9), insert(2, 9), delete(1, 10)),
            (delete(1, 9), insert(0, 0), delete(1, 10)),
            (delete(1, 9), delete(0, 8), delete(1, 8)),
            (delete(1, 9), nothing(2), delete(1, 9)),
            (insert(1, u32::MAX), delete(0, 0), insert(1, u32::MAX - 1)),
            (insert(1, u32::MAX - 1), insert(0, 0), insert(1, u32::MAX)),
            (delete(1, u32::MAX), delete(0, 8), delete(1, u32::MAX - 1)),
        ];
        let on = |(site, action): Operation, length| match action {
            Some(action) => Change::new(site, action, length),
            None => Change::keep(site, length),
        };
        for (a, b, expected) in table {
            let (a, b) = (on(a, LENGTH), on(b, LENGTH));
            let expected = on(expected, b.after());
            assert_eq!(a.past(b), expected, "{a:?} past {b:?}");
        }
    }

    #[test]
    fn knows_the_text_before_and_after() {
        for length in 0..4 {
            for change in all_changes(1, length) {
                assert_eq!(change.before(), length);
            }
        }
        let after = |action| Change::new(1, action, 3).after();
        assert_eq!((after(insert(3, 'a')), after(delete(2))), (4, 2));
        assert_eq!(Change::keep(1, 3).after(), 3);
    }

    #[test]
    fn says_what_is_wrong_first() {
        const LAST: u32 = u32::MAX;
        let insert = |place, letter| Action::Insert { place, letter };
        // What is done to a text of three letters.
        let table = [
            (insert(0, 1), Ok(())),
            (insert(3, LAST_LETTER), Ok(())),
            (delete(0), Ok(())),
            (delete(2), Ok(())),
            (insert(3, 0), Err(Refusal::Letter)),
            (insert(3, LAST_LETTER + 1), Err(Refusal::Letter)),
            (insert(3, LAST), Err(Refusal::Letter)),
            (insert(4, 0), Err(Refusal::Letter)),
            (insert(4, 97), Err(Refusal::Place)),
            (insert(LAST, 97), Err(Refusal::Place)),
            (delete(3), Err(Refusal::Place)),
            (delete(LAST), Err(Refusal::Place)),
        ];
        for (action, expected) in table {
            assert_eq!(Change::new(5, action, 3).check(), expected, "{action:?}");
        }
        assert_eq!(Change::new(5, delete(0), 0).check(), Err(Refusal::Place));
        assert_eq!(Change::keep(5, 0).check(), Ok(()));
    }

    #[test]
    fn needs_room_only_to_put_in() {
        let room = |action, most| Change::new(5, action, 3).check_room(most);
        assert_eq!(room(insert(0, 'a'), 4), Ok(()));
        assert_eq!(room(insert(0, 'a'), 3), Err(Refusal::Full));
        assert_eq!(room(insert(0, 'a'), 2), Err(Refusal::Full));
        assert_eq!(room(delete(0), 2), Ok(()));
        assert_eq!(Change::keep(5, 3).check_room(2), Ok(()));
    }

    #[test]
    fn both_orders_come_to_the_same_text() {
        for text in all_texts() {
            for (site, other) in pairs_of_sites() {
                for a in all_changes(site, text.length()) {
                    for b in all_changes(other, text.length()) {
                        assert_eq!(
                            after(&text, &[a, b.past(a)]),
                            after(&text, &[b, a.past(b)]),
                            "{a:?} and {b:?} on {text:?}"
                        );
                    }
                }
            }
        }
    }

    /// Every two different sites.
    fn pairs_of_sites() -> Vec<(u8, u8)> {
        let all = (0..16).flat_map(|site| (0..16).map(move |other| (site, other)));
        all.filter(|(site, other)| site != other).collect()
    }

    #[test]
    fn one_through_two_comes_to_the_same_text() {
        // The site of the one is 1; those of the two are below, above or one of each.
        for text in all_texts() {
            for (first, second) in [(0, 0), (0, 2), (2, 0), (2, 2)] {
                for a in all_changes(1, text.length()) {
                    for b in all_changes(first, text.length()) {
                        for c in all_changes(second, b.after()) {
                            let between = a.past(b);
                            assert_eq!(
                                after(&text, &[a, b.past(a), c.past(between)]),
                                after(&text, &[b, c, between.past(c)]),
                                "{a:?} through {b:?} and {c:?} on {text:?}"
                            );
                        }
                    }
                }
            }
        }
    }
}
