//! A client.

use super::operation::{pass, Entry, Operation, MOST_ENTRIES};
use super::text::{Text, RECORD};
use super::Refusal;

/// How many operations can be pending.
pub const MOST_PENDING: usize = 256;

pub struct Client {
    site: u8,
    text: Text,
    pending: Vec<Operation>,
    revision: u32,
}

impl Client {
    /// One with an empty text, at the beginning of the history.
    pub fn new(site: u8) -> Client {
        Client {
            site,
            text: Text::with_room(RECORD + MOST_PENDING),
            pending: Vec::with_capacity(MOST_PENDING),
            revision: 0,
        }
    }

    pub fn text(&self) -> &Text {
        &self.text
    }

    /// How many entries it has seen.
    pub fn revision(&self) -> u32 {
        self.revision
    }

    /// Puts a letter in, and gives what to send: the operation and the revision.
    pub fn insert(&mut self, place: u32, letter: u32) -> Result<(Operation, u32), Refusal> {
        let site = self.site;
        self.perform(Operation::Insert {
            site,
            place,
            letter,
        })
    }

    /// Takes a letter away, and gives what to send.
    pub fn delete(&mut self, place: u32) -> Result<(Operation, u32), Refusal> {
        let site = self.site;
        self.perform(Operation::Delete { site, place })
    }

    fn perform(&mut self, operation: Operation) -> Result<(Operation, u32), Refusal> {
        if self.pending.len() >= MOST_PENDING {
            return match self.text.check(operation, RECORD) {
                Ok(()) | Err(Refusal::Full) => Err(Refusal::Pending),
                Err(refusal) => Err(refusal),
            };
        }
        self.text.apply(operation, RECORD)?;
        self.pending.push(operation);
        Ok((operation, self.revision))
    }

    /// Sees the next entry, or refuses it and changes nothing.
    pub fn see(&mut self, entry: Entry) -> Result<(), Refusal> {
        if entry.place != self.revision || entry.place >= MOST_ENTRIES {
            return Err(Refusal::Entry);
        }
        if entry.operation.site() == self.site {
            if !self.pending.is_empty() {
                self.pending.remove(0);
            }
        } else {
            let mut pending = self.pending.clone();
            let passed = pass(entry.operation, pending.iter_mut());
            self.text.apply(passed, usize::MAX)?;
            self.pending = pending;
        }
        self.revision += 1;
        Ok(())
    }
}
