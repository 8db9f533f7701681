//! A client: the server's text as far as it has seen it, and what it has done that has not come back.

use crate::change::Action;
use crate::pending::Pending;
use crate::refusal::Refusal;
use crate::server::{Entry, Welcome, MOST_ENTRIES, RECORD};
use crate::text::Text;

/// How many changes can be pending.
const MOST_PENDING: usize = 256;

/// How many letters the client's own text can have.
const SCREEN: i64 = RECORD + MOST_PENDING as i64;

/// After so many entries the client says how far it has come.
const TELL_EVERY: u32 = 1024;

/// What a client sends to the server.
#[derive(Clone, Copy, Debug, PartialEq, Eq)]
pub enum Message {
    /// What it did, and its revision at that time.
    Operation { action: Action, revision: u32 },
    /// Its revision so far.
    Revision(u32),
}

#[derive(Clone, Debug, PartialEq, Eq)]
pub struct Client {
    /// The server's text at the client's revision.
    base: Text,
    pending: Pending,
}

impl Client {
    /// A client that has just joined.
    pub fn new(welcome: Welcome) -> Client {
        Client {
            pending: Pending::new(welcome.site, welcome.revision, welcome.text.length()),
            base: welcome.text,
        }
    }

    /// Its own text: the server's as it has seen it, and on top of that what is pending.
    pub fn text(&self) -> Text {
        let mut text = self.base.clone();
        for &change in self.pending.changes() {
            text.apply(change);
        }
        text
    }

    /// How many letters its own text has.
    pub fn length(&self) -> i64 {
        self.pending.length()
    }

    /// How many entries it has seen, which is also the place of the next.
    pub fn revision(&self) -> u32 {
        self.pending.revision()
    }

    /// Does this to its own text at once, and gives what is to be sent.
    pub fn perform(&mut self, action: Action) -> Result<Message, Refusal> {
        let change = self.pending.change(action);
        change.check()?;
        if self.pending.changes().len() >= MOST_PENDING {
            return Err(Refusal::Pending);
        }
        change.check_room(RECORD)?;
        self.pending.push(change);
        let revision = self.revision();
        Ok(Message::Operation { action, revision })
    }

    /// Sees the next entry, and gives what is to be sent, if anything is.
    pub fn see(&mut self, entry: Entry) -> Result<Option<Message>, Refusal> {
        if entry.place != self.revision() || entry.place >= MOST_ENTRIES {
            return Err(Refusal::Entry);
        }
        let mut pending = self.pending.clone();
        let change = pending.see(entry.change);
        change.check()?;
        change.check_room(SCREEN)?;
        self.base.apply(entry.change);
        self.pending = pending;
        let revision = self.revision();
        let tells = revision.is_multiple_of(TELL_EVERY);
        Ok(tells.then_some(Message::Revision(revision)))
    }
}

#[cfg(test)]
mod tests {
    use super::*;
    use crate::change::tests::{delete, insert};
    use crate::change::Change;

    const SITE: u8 = 1;
    const OTHER: u8 = 0;

    /// A client that joins to this text, with so many entries in the history.
    fn client(letters: &str, revision: u32) -> Client {
        Client::new(Welcome {
            site: SITE,
            text: Text::of(letters, OTHER),
            revision,
            entries: 0,
        })
    }

    /// A client that joins to a text of so many letters.
    fn long_client(length: i64) -> Client {
        client(&"a".repeat(length as usize), 0)
    }

    fn place(length: i64) -> u32 {
        u32::try_from(length).unwrap()
    }

    impl Client {
        fn see_next(&mut self, change: Change) -> Result<Option<Message>, Refusal> {
            let place = self.revision();
            self.see(Entry { place, change })
        }

        /// Sees that the other client has done this.
        fn see_other(&mut self, action: Action) -> Result<Option<Message>, Refusal> {
            self.see_next(Change::new(OTHER, action, self.base.length()))
        }

        fn see_nothing(&mut self) -> Result<Option<Message>, Refusal> {
            self.see_next(Change::keep(OTHER, self.base.length()))
        }

        /// Sees the first of what is pending come back.
        fn see_own(&mut self) -> Result<Option<Message>, Refusal> {
            self.see_next(self.pending.changes()[0])
        }
    }

    /// That it is refused for this reason, and nothing changes.
    fn assert_refused<T: std::fmt::Debug>(
        client: &mut Client,
        reason: Refusal,
        act: impl FnOnce(&mut Client) -> Result<T, Refusal>,
    ) {
        let before = client.clone();
        assert_eq!(act(client).unwrap_err(), reason);
        assert_eq!(*client, before);
    }

    #[test]
    fn sends_what_it_does() {
        let mut client = client("abc", 7);
        for action in [insert(3, 'd'), delete(0), insert(0, '\u{10ffff}')] {
            let revision = 7;
            let sent = Message::Operation { action, revision };
            assert_eq!(client.perform(action), Ok(sent));
        }
        assert_eq!(client.text().to_string(), "\u{10ffff}bcd");
        assert_eq!(client.length(), 4);
        assert_eq!(client.pending.changes().len(), 3);
        assert_eq!(client.revision(), 7);
    }

    #[test]
    fn its_text_is_the_history_and_then_what_is_pending() {
        let mut client = client("abc", 0);
        client.perform(insert(1, 'x')).unwrap();
        client.perform(delete(3)).unwrap();
        assert_eq!(client.text().to_string(), "axb");

        // y goes before x, since its site is lower.
        assert_eq!(client.see_other(insert(1, 'y')), Ok(None));
        assert_eq!(client.text().to_string(), "ayxb");
        // Both have struck c.
        assert_eq!(client.see_other(delete(3)), Ok(None));
        assert_eq!(client.text().to_string(), "ayxb");
        let inserted = Change::new(SITE, insert(2, 'x'), 3);
        let nothing = Change::keep(SITE, 4);
        assert_eq!(client.pending.changes(), &[inserted, nothing]);
        assert_eq!(client.base.to_string(), "ayb");

        // What has come back changes nothing but what is pending.
        assert_eq!(client.see_own(), Ok(None));
        assert_eq!(client.text().to_string(), "ayxb");
        assert_eq!(client.pending.changes(), &[nothing]);
        assert_eq!(client.see_own(), Ok(None));
        assert_eq!(client.text().to_string(), "ayxb");
        assert!(client.pending.changes().is_empty());
        assert_eq!(client.revision(), 4);
    }

    #[test]
    fn refuses_for_the_lowest_number() {
        let end = place(RECORD);
        let mut full = long_client(RECORD);
        assert_refused(&mut full, Refusal::Letter, |c| {
            c.perform(insert(end + 1, '\0'))
        });
        assert_refused(&mut full, Refusal::Place, |c| {
            c.perform(insert(end + 1, 'x'))
        });
        assert_refused(&mut full, Refusal::Place, |c| c.perform(delete(end)));
        assert_refused(&mut full, Refusal::Full, |c| c.perform(insert(end, 'x')));

        let mut busy = long_client(RECORD - 10);
        for _ in 0..MOST_PENDING / 2 {
            busy.perform(insert(0, 'x')).unwrap();
            busy.perform(delete(0)).unwrap();
        }
        let end = place(busy.length());
        assert_refused(&mut busy, Refusal::Letter, |c| {
            c.perform(insert(end + 1, '\0'))
        });
        assert_refused(&mut busy, Refusal::Place, |c| {
            c.perform(insert(end + 1, 'x'))
        });
        assert_refused(&mut busy, Refusal::Place, |c| c.perform(delete(end)));
        assert_refused(&mut busy, Refusal::Pending, |c| c.perform(insert(end, 'x')));
        assert_refused(&mut busy, Refusal::Pending, |c| c.perform(delete(0)));

        // With too many pending and a full text, the number is 4.
        for _ in 0..10 {
            busy.see_other(insert(0, 'y')).unwrap();
        }
        assert_eq!(busy.length(), RECORD);
        assert_refused(&mut busy, Refusal::Pending, |c| c.perform(insert(0, 'x')));
        // Two have come back, and the number is 7.
        busy.see_own().unwrap();
        busy.see_own().unwrap();
        assert_refused(&mut busy, Refusal::Full, |c| c.perform(insert(0, 'x')));
        assert!(busy.perform(delete(0)).is_ok());
    }

    #[test]
    fn refuses_entries() {
        let mut client = client("abc", 5);
        client.perform(insert(0, 'x')).unwrap();
        for place in [0, 4, 6, u32::MAX] {
            for site in [OTHER, SITE] {
                for action in [delete(0), delete(9), insert(0, '\0')] {
                    let change = Change::new(site, action, 3);
                    assert_refused(&mut client, Refusal::Entry, |c| {
                        c.see(Entry { place, change })
                    });
                }
            }
        }
        assert_refused(&mut client, Refusal::Letter, |c| {
            c.see_other(insert(9, '\0'))
        });
        assert_refused(&mut client, Refusal::Place, |c| c.see_other(insert(4, 'y')));
        assert_refused(&mut client, Refusal::Place, |c| c.see_other(delete(3)));

        // No history has an entry at this place.
        let mut late = super::tests::client("", MOST_ENTRIES);
        assert_refused(&mut late, Refusal::Entry, Client::see_nothing);
        let mut late = super::tests::client("", MOST_ENTRIES - 1);
        assert_eq!(late.see_nothing(), Ok(None));
    }

    #[test]
    fn has_room_for_a_full_record_and_all_that_is_pending() {
        let mut client = long_client(RECORD - MOST_PENDING as i64);
        for _ in 0..MOST_PENDING {
            client.perform(insert(0, 'x')).unwrap();
        }
        for _ in 0..MOST_PENDING {
            client.see_other(insert(0, 'y')).unwrap();
        }
        assert_eq!(client.length(), SCREEN);
        assert_refused(&mut client, Refusal::Full, |c| c.see_other(insert(0, 'y')));
        assert_eq!(client.see_own(), Ok(None));
        assert_eq!(client.see_other(delete(0)), Ok(None));
        assert_eq!(client.text().length(), SCREEN - 1);
    }

    #[test]
    fn says_how_far_it_has_come() {
        let mut client = client("", 1022);
        assert_eq!(client.see_nothing(), Ok(None));
        assert_eq!(client.see_nothing(), Ok(Some(Message::Revision(1024))));
        for _ in 1024..2047 {
            assert_eq!(client.see_nothing(), Ok(None));
        }
        // What it did itself counts as well.
        client.perform(insert(0, 'x')).unwrap();
        assert_eq!(client.see_own(), Ok(Some(Message::Revision(2048))));
    }
}
