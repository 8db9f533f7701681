//! The server.

use super::operation::{pass, Entry, Operation, MOST_ENTRIES};
use super::text::{Text, RECORD};
use super::Refusal;

const SITES: usize = 16;

/// How many entries a client may have before it.
pub const MOST_CONCURRENT: usize = 4096;

/// What the server has of a client that is connected.
struct Session {
    said: u32,
    concurrent: Vec<Entry>,
}

pub struct Server {
    text: Text,
    history: Vec<Operation>,
    sessions: [Option<Session>; SITES],
}

impl Server {
    /// One with an empty text.
    pub fn new() -> Server {
        Server {
            text: Text::with_room(RECORD),
            history: Vec::new(),
            sessions: [const { None }; SITES],
        }
    }

    pub fn text(&self) -> &Text {
        &self.text
    }

    /// How many entries the history has.
    pub fn revision(&self) -> u32 {
        self.history.len() as u32
    }

    /// The highest revision that the site's client has said, if the site has one.
    pub fn said(&self, site: u8) -> Option<u32> {
        let session = self.sessions.get(usize::from(site))?.as_ref()?;
        Some(session.said)
    }

    /// How many entries the site's client has before it.
    pub fn unseen(&self, site: u8) -> usize {
        let session = self.sessions.get(usize::from(site));
        let session = session.and_then(Option::as_ref);
        session.map_or(0, |session| session.concurrent.len())
    }

    /// A client joins: at the site that it wants if that is free, else at the highest that is.
    pub fn join(&mut self, wanted: u8) -> Result<u8, Refusal> {
        let is_free = |&site: &usize| self.sessions.get(site).is_some_and(Option::is_none);
        let site = Some(usize::from(wanted))
            .filter(is_free)
            .or_else(|| (0..SITES).rev().find(is_free))
            .ok_or(Refusal::Sites)?;
        self.sessions[site] = Some(Session {
            said: self.revision(),
            concurrent: Vec::with_capacity(MOST_CONCURRENT),
        });
        Ok(site as u8)
    }

    /// Takes an operation that a client made at the revision. What is refused ends the client's connection.
    pub fn take(&mut self, operation: Operation, revision: u32) -> Result<Entry, Refusal> {
        let site = usize::from(operation.site());
        let place = self.revision();
        let Some(Some(session)) = self.sessions.get_mut(site) else {
            return Err(Refusal::Connection);
        };
        let is_bad = revision > place || revision < session.said;
        let passed = session.pass(operation, revision);
        if let Err(refusal) = self.check(passed, is_bad) {
            self.sessions[site] = None;
            return Err(refusal);
        }
        let entry = Entry {
            place,
            operation: passed,
        };
        self.history.push(passed);
        self.text.apply(passed, RECORD)?;
        for (other, slot) in self.sessions.iter_mut().enumerate() {
            if other != site {
                tell(slot, entry);
            }
        }
        Ok(entry)
    }

    fn check(&self, operation: Operation, is_bad: bool) -> Result<(), Refusal> {
        match self.text.check(operation, RECORD) {
            Ok(()) | Err(Refusal::Full) if is_bad => Err(Refusal::Revision),
            Ok(()) if self.history.len() >= MOST_ENTRIES as usize => Err(Refusal::Full),
            answer => answer,
        }
    }
}

impl Session {
    /// An operation of the client, made at the revision, goes past what it had not seen.
    fn pass(&mut self, operation: Operation, revision: u32) -> Operation {
        self.concurrent.retain(|entry| entry.place >= revision);
        self.said = revision;
        pass(
            operation,
            self.concurrent.iter_mut().map(|entry| &mut entry.operation),
        )
    }
}

/// The client is told of an entry; or it has too many before it, and its connection is ended.
fn tell(slot: &mut Option<Session>, entry: Entry) {
    match slot {
        Some(session) if session.concurrent.len() < MOST_CONCURRENT => {
            session.concurrent.push(entry);
        }
        _ => *slot = None,
    }
}
