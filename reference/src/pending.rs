//! What a client has done that has not come back to it.

use std::collections::VecDeque;

use crate::change::{Action, Change};

/// The changes that are pending at a client at its revision, the oldest first.
/// The client has them, and the server has the same of each client, as far as it has heard.
#[derive(Clone, Debug, PartialEq, Eq)]
pub struct Pending {
    site: u8,
    revision: u32,
    /// How many letters the server's text has at the revision. All changes come on top of it.
    base: i64,
    changes: VecDeque<Change>,
}

impl Pending {
    /// Nothing, at a client that joins to a text of so many letters.
    pub fn new(site: u8, revision: u32, base: i64) -> Pending {
        Pending {
            site,
            revision,
            base,
            changes: VecDeque::new(),
        }
    }

    /// How many entries the client has seen.
    pub fn revision(&self) -> u32 {
        self.revision
    }

    /// How many letters the client's own text has.
    pub fn length(&self) -> i64 {
        let last = self.changes.back();
        last.map_or(self.base, |change| change.after())
    }

    pub fn changes(&self) -> &VecDeque<Change> {
        &self.changes
    }

    /// The one change that is pending.
    pub fn only(&self) -> Change {
        assert_eq!(self.changes.len(), 1, "{self:?}");
        self.changes[0]
    }

    /// What an action changes in the client's own text.
    pub fn change(&self, action: Action) -> Change {
        Change::new(self.site, action, self.length())
    }

    /// The client has made this change.
    pub fn push(&mut self, change: Change) {
        self.changes.push_back(change);
    }

    /// The client sees the next entry. Gives what that changes in the client's own text.
    pub fn see(&mut self, entry: Change) -> Change {
        assert_eq!(entry.before(), self.base, "{entry:?}");
        self.revision += 1;
        self.base = entry.after();
        if entry.site == self.site {
            let own = self.changes.pop_front();
            assert_eq!(own, Some(entry), "what comes back is what is pending");
            return Change::keep(self.site, self.length());
        }
        let mut seen = entry;
        for change in &mut self.changes {
            (*change, seen) = (change.past(seen), seen.past(*change));
        }
        seen
    }

    /// The client sees the entries up to this revision that it has not seen.
    pub fn see_up_to(&mut self, revision: u32, history: &[Change]) {
        let entries = history.iter().take(revision as usize);
        for &entry in entries.skip(self.revision as usize) {
            self.see(entry);
        }
    }

    /// How many entries of other sites the client has not seen.
    pub fn unseen(&self, history: &[Change]) -> usize {
        let entries = history.iter().skip(self.revision as usize);
        entries.filter(|entry| entry.site != self.site).count()
    }
}

#[cfg(test)]
mod tests {
    use super::*;
    use crate::change::tests::{after, all_changes, all_texts, delete, insert};

    const SITE: u8 = 1;
    const OTHER: u8 = 0;

    /// What is pending when these were done to a text of three letters.
    fn pending(actions: &[Action]) -> Pending {
        let mut pending = Pending::new(SITE, 0, 3);
        for &action in actions {
            pending.push(pending.change(action));
        }
        pending
    }

    #[test]
    fn knows_the_length_of_the_clients_text() {
        assert_eq!(pending(&[]).length(), 3);
        assert_eq!(pending(&[insert(3, 'x'), insert(0, 'y')]).length(), 5);
        assert_eq!(pending(&[insert(3, 'x'), delete(0), delete(0)]).length(), 2);
    }

    #[test]
    fn what_comes_back_is_pending_no_more() {
        let mut pending = pending(&[insert(1, 'x'), delete(3)]);
        let inserted = Change::new(SITE, insert(1, 'x'), 3);
        let deleted = Change::new(SITE, delete(3), 4);
        assert_eq!(pending.changes(), &[inserted, deleted]);
        assert_eq!(pending.see(inserted), Change::keep(SITE, 3));
        assert_eq!(pending.changes(), &[deleted]);
        assert_eq!(pending.only(), deleted);
        assert_eq!(pending.see(deleted), Change::keep(SITE, 3));
        assert_eq!(pending, Pending::new(SITE, 2, 3));
    }

    #[test]
    #[should_panic]
    fn nothing_else_comes_back() {
        pending(&[insert(1, 'x')]).see(Change::new(SITE, insert(1, 'y'), 3));
    }

    #[test]
    fn sees_up_to_a_revision() {
        let history = [
            Change::new(OTHER, insert(0, 'a'), 3),
            Change::new(SITE, insert(1, 'b'), 4),
            Change::new(OTHER, delete(4), 5),
        ];
        let mut pending = pending(&[insert(0, 'b')]);
        assert_eq!(pending.unseen(&history), 2);
        for (revision, seen, unseen) in [(0, 0, 2), (1, 1, 1), (0, 1, 1), (9, 3, 0), (2, 3, 0)] {
            pending.see_up_to(revision, &history);
            assert_eq!(pending.revision(), seen);
            assert_eq!(pending.unseen(&history), unseen);
        }
        assert_eq!(pending, Pending::new(SITE, 3, 4));
    }

    #[test]
    fn an_entry_and_two_that_are_pending_come_to_the_same_text() {
        for text in all_texts() {
            for a in all_changes(SITE, text.length()) {
                for b in all_changes(SITE, a.after()) {
                    for other in [0, 2] {
                        for entry in all_changes(other, text.length()) {
                            let mut pending = Pending::new(SITE, 7, text.length());
                            pending.push(a);
                            pending.push(b);
                            let seen = pending.see(entry);
                            let [past_a, past_b] = [pending.changes[0], pending.changes[1]];
                            let screen = after(&text, &[a, b, seen]);
                            assert_eq!(screen, after(&text, &[entry, past_a, past_b]));
                            assert_eq!(screen.length(), pending.length());
                        }
                    }
                }
            }
        }
    }
}
