//! The server: the text, its history, and who is connected.

use crate::change::{Action, Change};
use crate::pending::Pending;
use crate::refusal::Refusal;
use crate::text::Text;

/// How many sites there are.
const SITES: usize = 16;

/// How many letters the server's text can have.
pub const RECORD: i64 = 65_536;

/// How many entries the history can have.
pub const MOST_ENTRIES: u32 = 4_294_967_294;

/// How many entries of other sites a client may leave unseen, as far as the server has heard.
const MOST_CONCURRENT: usize = 4096;

/// A change and its place in the history.
#[derive(Clone, Copy, Debug, PartialEq, Eq)]
pub struct Entry {
    pub place: u32,
    pub change: Change,
}

/// What a client gets when it joins.
#[derive(Clone, Debug, PartialEq, Eq)]
pub struct Welcome {
    pub site: u8,
    pub text: Text,
    pub revision: u32,
    /// How many entries of the history have this site.
    pub entries: usize,
}

#[derive(Clone, Debug, Default, PartialEq, Eq)]
pub struct Server {
    text: Text,
    history: Vec<Change>,
    /// For each site that has a client: what was pending there at the revision that it last said,
    /// of what the server has taken.
    mirrors: [Option<Pending>; SITES],
}

impl Server {
    pub fn text(&self) -> &Text {
        &self.text
    }

    /// How many entries the history has.
    pub fn revision(&self) -> u32 {
        u32::try_from(self.history.len()).unwrap_or(MOST_ENTRIES)
    }

    /// The entry at this place of the history, if there is one.
    pub fn entry(&self, place: u32) -> Option<Entry> {
        let &change = self.history.get(place as usize)?;
        Some(Entry { place, change })
    }

    pub fn is_connected(&self, site: u8) -> bool {
        let mirror = self.mirrors.get(usize::from(site));
        mirror.is_some_and(Option::is_some)
    }

    /// A client joins: with the site it wants if that is free, else with the highest that is.
    pub fn join(&mut self, wanted: u8) -> Result<Welcome, Refusal> {
        let sites = (0..).take(SITES);
        let site = sites
            .filter(|&site| !self.is_connected(site))
            .max_by_key(|&site| (site == wanted, site))
            .ok_or(Refusal::Sites)?;
        let revision = self.revision();
        let mirror = Pending::new(site, revision, self.text.length());
        self.mirrors[usize::from(site)] = Some(mirror);
        let own = self.history.iter().filter(|entry| entry.site == site);
        Ok(Welcome {
            site,
            text: self.text.clone(),
            revision,
            entries: own.count(),
        })
    }

    /// The site is free from now on.
    pub fn end(&mut self, site: u8) {
        if let Some(mirror) = self.mirrors.get_mut(usize::from(site)) {
            *mirror = None;
        }
    }

    /// Takes what a client did at this revision. A refusal ends its connection.
    pub fn take(&mut self, site: u8, action: Action, revision: u32) -> Result<(), Refusal> {
        self.accept(site, action, revision)
            .inspect_err(|_| self.end(site))
    }

    /// A client says how far it has come. A refusal ends its connection.
    pub fn hear(&mut self, site: u8, revision: u32) -> Result<(), Refusal> {
        self.mirror_at(site, revision)
            .and_then(|mirror| check_revision(mirror, revision))
            .inspect_err(|_| self.end(site))
    }

    /// Begins again with nothing but the history.
    pub fn restart(&mut self) {
        self.mirrors = Default::default();
        self.text = Text::default();
        for &entry in &self.history {
            self.text.apply(entry);
        }
    }

    fn accept(&mut self, site: u8, action: Action, revision: u32) -> Result<(), Refusal> {
        let mirror = self.mirror_at(site, revision)?;
        mirror.push(mirror.change(action));
        let revision_is_good = check_revision(mirror, revision);
        // Who has seen all of the history has nothing pending but this, as it is by then.
        let mut later = mirror.clone();
        later.see_up_to(self.revision(), &self.history);
        let change = later.only();

        change.check()?;
        revision_is_good?;
        change.check_room(RECORD)?;
        if self.revision() >= MOST_ENTRIES {
            return Err(Refusal::Full);
        }
        self.text.apply(change);
        self.history.push(change);
        for mirror in &mut self.mirrors {
            mirror.take_if(|mirror| mirror.unseen(&self.history) > MOST_CONCURRENT);
        }
        Ok(())
    }

    /// The mirror of a client that says this revision. It comes as near to that as it can:
    /// it never goes back, and ends at the end of the history.
    fn mirror_at(&mut self, site: u8, revision: u32) -> Result<&mut Pending, Refusal> {
        let mirror = self.mirrors.get_mut(usize::from(site));
        let mirror = mirror.and_then(Option::as_mut).ok_or(Refusal::Connection)?;
        mirror.see_up_to(revision, &self.history);
        Ok(mirror)
    }
}

/// Whether the client can be at this revision, and has not said a higher one. Only then its mirror is there.
fn check_revision(mirror: &Pending, revision: u32) -> Result<(), Refusal> {
    if mirror.revision() == revision {
        Ok(())
    } else {
        Err(Refusal::Revision)
    }
}

#[cfg(test)]
mod tests {
    use super::*;
    use crate::change::tests::{delete, insert};

    /// A server with this text, typed at site 0, to which sites 0 and 1 have just joined.
    fn server(letters: &str) -> Server {
        let mut server = Server::default();
        server.join(0).unwrap();
        for (place, letter) in (0..).zip(letters.chars()) {
            server.take(0, insert(place, letter), place).unwrap();
        }
        server.end(0);
        server.join(0).unwrap();
        server.join(1).unwrap();
        server
    }

    fn mirror(server: &Server, site: usize) -> &Pending {
        server.mirrors[site].as_ref().unwrap()
    }

    fn unseen(server: &Server, site: usize) -> usize {
        mirror(server, site).unseen(&server.history)
    }

    #[test]
    fn gives_out_sites() {
        let mut server = Server::default();
        let mut join = |wanted| server.join(wanted).map(|welcome| welcome.site);
        assert_eq!(join(3), Ok(3));
        // Not free, or no site at all: the highest that is free.
        assert_eq!(join(3), Ok(15));
        assert_eq!(join(16), Ok(14));
        assert_eq!(join(255), Ok(13));
        assert_eq!(join(0), Ok(0));
        for expected in [12, 11, 10, 9, 8, 7, 6, 5, 4, 2, 1] {
            assert_eq!(join(0), Ok(expected));
        }
        assert_eq!(join(0), Err(Refusal::Sites));

        let before = server.clone();
        assert_eq!(server.join(7), Err(Refusal::Sites));
        assert_eq!(server, before);
        server.end(5);
        server.end(5);
        server.end(16);
        server.end(255);
        assert_eq!(server.join(7).unwrap().site, 5);
    }

    #[test]
    fn a_client_that_joins_gets_all_it_needs() {
        let mut server = server("abc");
        server.take(0, delete(1), 3).unwrap();
        server.take(1, delete(1), 3).unwrap();
        server.end(1);
        let welcome = server.join(1).unwrap();
        assert_eq!(welcome.text, Text::of("ac", 0));
        assert_eq!((welcome.site, welcome.revision), (1, 5));
        // The one entry of site 1 is nothing, and counts as well.
        assert_eq!(welcome.entries, 1);
        server.end(0);
        assert_eq!(server.join(0).unwrap().entries, 4);
        assert_eq!(server.join(9).unwrap().entries, 0);
        assert_eq!(*mirror(&server, 1), Pending::new(1, 5, 2));
    }

    #[test]
    fn moves_what_is_taken_past_what_the_client_had_not_seen() {
        let mut server = server("abc");
        server.take(1, insert(1, 'z'), 3).unwrap();
        assert_eq!(server.text().to_string(), "azbc");
        server.take(0, insert(1, 'x'), 3).unwrap();
        assert_eq!(server.text().to_string(), "axzbc");
        server.take(0, insert(2, 'y'), 3).unwrap();
        assert_eq!(server.text().to_string(), "axyzbc");
        assert_eq!((unseen(&server, 0), unseen(&server, 1)), (1, 2));
        // Site 1 has seen up to x.
        server.take(1, delete(0), 5).unwrap();
        assert_eq!((unseen(&server, 0), unseen(&server, 1)), (2, 1));
        // At that time it has only this pending, done to the text axzbc.
        let deleted = Change::new(1, delete(0), 5);
        assert_eq!(mirror(&server, 1).changes(), &[deleted]);
        let entry = Change::new(1, delete(0), 6);
        assert_eq!(server.entry(6).unwrap().change, entry);
        assert_eq!(server.entry(7), None);
        // Site 0 has seen z, and then y and the deletion are still to come back or to be seen.
        server.take(0, insert(6, 'd'), 5).unwrap();
        assert_eq!(server.text().to_string(), "xyzbcd");
    }

    #[test]
    fn hears_revisions() {
        let mut server = server("");
        for place in 0..5 {
            server.take(0, insert(place, 'a'), 0).unwrap();
        }
        assert_eq!(server.hear(1, 3), Ok(()));
        assert_eq!(unseen(&server, 1), 2);
        assert_eq!(server.hear(1, 3), Ok(()));
        assert_eq!(server.hear(1, 5), Ok(()));
        assert_eq!(unseen(&server, 1), 0);
        assert_eq!(server.hear(1, 4), Err(Refusal::Revision));
        assert!(!server.is_connected(1));
        assert_eq!(server.hear(1, 5), Err(Refusal::Connection));
        assert_eq!(server.hear(0, 6), Err(Refusal::Revision));
        assert!(!server.is_connected(0));
        assert_eq!(server.hear(16, 5), Err(Refusal::Connection));
        assert_eq!(server.revision(), 5);
    }

    #[test]
    fn refuses_for_the_lowest_number_and_ends_the_connection() {
        // What site 1 does to the text abc, of which site 0 has struck the c.
        let table = [
            (insert(9, '\0'), 9, Refusal::Letter),
            (insert(0, '\0'), 3, Refusal::Letter),
            (insert(4, 'x'), 9, Refusal::Place),
            (delete(3), 9, Refusal::Place),
            (insert(3, 'x'), 4, Refusal::Place),
            (delete(2), 4, Refusal::Place),
            (insert(4, 'x'), 3, Refusal::Place),
            (delete(3), 3, Refusal::Place),
            (delete(u32::MAX), 2, Refusal::Place),
            (insert(0, 'x'), 5, Refusal::Revision),
            (insert(0, 'x'), 2, Refusal::Revision),
            (delete(2), 2, Refusal::Revision),
        ];
        for (action, revision, reason) in table {
            let mut server = server("abc");
            server.take(0, delete(2), 3).unwrap();
            let mut expected = server.clone();
            expected.end(1);
            assert_eq!(server.take(1, action, revision), Err(reason));
            assert_eq!(server, expected, "{action:?} at {revision}");
        }
        let mut server = server("abc");
        let before = server.clone();
        for site in [2, 15, 16, 255] {
            let taken = server.take(site, insert(9, '\0'), 9);
            assert_eq!(taken, Err(Refusal::Connection));
        }
        assert_eq!(server, before);
    }

    #[test]
    fn refuses_letters_for_which_there_is_no_room() {
        let mut server = Server::default();
        server.join(0).unwrap();
        let length = u32::try_from(RECORD).unwrap();
        for place in 0..length - 1 {
            server.take(0, insert(place, 'a'), place).unwrap();
        }
        server.join(1).unwrap();
        server.take(1, insert(0, 'x'), length - 1).unwrap();
        assert_eq!(server.text().length(), RECORD);
        // A revision below the one that was said goes first.
        let taken = server.take(0, insert(0, 'y'), 0);
        assert_eq!(taken, Err(Refusal::Revision));
        server.join(0).unwrap();
        let taken = server.take(0, insert(0, 'y'), length);
        assert_eq!(taken, Err(Refusal::Full));
        assert!(!server.is_connected(0));
        assert_eq!(server.take(1, delete(0), length - 1), Ok(()));
        assert_eq!(server.text().length(), RECORD - 1);
    }

    #[test]
    fn ends_a_connection_with_too_much_unseen() {
        let mut server = Server::default();
        for site in 0..3 {
            server.join(site).unwrap();
        }
        let full = u32::try_from(MOST_CONCURRENT).unwrap();
        for _ in 0..full {
            server.take(0, insert(0, 'a'), 0).unwrap();
        }
        server.hear(2, 1).unwrap();
        assert_eq!(unseen(&server, 1), MOST_CONCURRENT);
        server.take(0, insert(0, 'a'), 0).unwrap();
        assert!(!server.is_connected(1));
        assert_eq!(unseen(&server, 2), MOST_CONCURRENT);
        let taken = server.take(1, insert(0, 'b'), 0);
        assert_eq!(taken, Err(Refusal::Connection));
        // It goes behind all that site 0 has put in at its place, and all of its own are pending there.
        assert_eq!(server.take(2, insert(0, 'c'), 1), Ok(()));
        let entry = server.entry(full + 1).unwrap();
        assert_eq!(entry.change.ahead, i64::from(full));
        assert_eq!(unseen(&server, 0), 1);
    }

    #[test]
    fn restarts_from_the_history() {
        let mut server = server("abc");
        server.take(0, delete(1), 3).unwrap();
        server.take(1, delete(1), 3).unwrap();
        server.take(1, insert(2, 'x'), 3).unwrap();
        let before = server.clone();
        server.text = Text::default();
        server.restart();
        assert_eq!(server.text(), before.text());
        assert_eq!(server.history, before.history);
        assert!((0..=255).all(|site| !server.is_connected(site)));
        assert_eq!(server.join(1).unwrap().entries, 2);
    }
}
