//! Datagrams in numbers.

use super::bytes;
use super::{spell, take_letters, Datagram, End, Letter, Message};
use crate::datagram_row::{
    DatagramRow, Said, ACKNOWLEDGEMENT, ENTRY, NEW, OPERATION, REVISION, TEXT,
};
use crate::plain::operation::Operation;
use crate::row::{Row, DELETE, INSERT};

/// The bytes of what is said, if it can be.
pub fn write(said: &Said) -> Option<Vec<u8>> {
    if said.row.kind == TEXT && said.letters.len() != said.sites.len() {
        return None;
    }
    let letters = spell(&said.letters, &said.sites);
    bytes::write(&said.row.datagram(&letters)?)
}

/// What bytes say that came to the server.
pub fn read_at_server(bytes: &[u8]) -> Option<DatagramRow> {
    bytes::read(bytes, End::Client).map(DatagramRow::from)
}

/// What bytes say that came to a client.
pub fn read_at_client(bytes: &[u8]) -> Option<Said> {
    let datagram = bytes::read(bytes, End::Server)?;
    let row = DatagramRow::from(datagram);
    let (mut letters, mut sites) = (vec![0; row.letters], vec![0; row.letters]);
    if let Some(Message::Text { letters: all, .. }) = datagram.message {
        take_letters(all, &mut letters, &mut sites);
    }
    Some(Said {
        row,
        letters,
        sites,
    })
}

impl DatagramRow {
    /// The datagram, with these letters if it is a text.
    pub fn datagram<'a>(&self, letters: &'a [Letter]) -> Option<Datagram<'a>> {
        let message = match self.kind {
            ACKNOWLEDGEMENT => None,
            _ => Some(self.message(letters)?),
        };
        Some(Datagram {
            connection: self.connection,
            number: self.number,
            message,
        })
    }

    pub fn message<'a>(&self, letters: &'a [Letter]) -> Option<Message<'a>> {
        let DatagramRow {
            revision,
            performed,
            ..
        } = *self;
        Some(match self.kind {
            OPERATION => Message::Operation {
                revision,
                operation: self.operation(0),
            },
            ENTRY => Message::Entry {
                place: revision,
                operation: self.operation(self.site),
            },
            REVISION => Message::Revision(revision),
            NEW => Message::New,
            TEXT => Message::Text {
                site: self.site,
                performed,
                revision,
                letters,
            },
            _ => return None,
        })
    }

    fn operation(&self, site: u8) -> Operation {
        let row = Row {
            kind: self.change,
            site,
            revision: self.revision,
            place: self.place,
            letter: self.letter,
        };
        row.operation()
    }

    fn with_operation(self, operation: Operation) -> DatagramRow {
        let site = operation.site();
        match operation {
            Operation::Nothing { .. } => DatagramRow { site, ..self },
            Operation::Insert { place, letter, .. } => DatagramRow {
                change: INSERT,
                site,
                place,
                letter,
                ..self
            },
            Operation::Delete { place, .. } => DatagramRow {
                change: DELETE,
                site,
                place,
                ..self
            },
        }
    }
}

impl From<Datagram<'_>> for DatagramRow {
    fn from(datagram: Datagram<'_>) -> DatagramRow {
        let bare = |kind, revision| DatagramRow {
            kind,
            connection: datagram.connection,
            number: datagram.number,
            revision,
            ..DatagramRow::default()
        };
        match datagram.message {
            None => bare(ACKNOWLEDGEMENT, 0),
            Some(Message::Operation {
                revision,
                operation,
            }) => bare(OPERATION, revision).with_operation(operation),
            Some(Message::Entry { place, operation }) => {
                bare(ENTRY, place).with_operation(operation)
            }
            Some(Message::Revision(revision)) => bare(REVISION, revision),
            Some(Message::New) => bare(NEW, 0),
            Some(Message::Text {
                site,
                performed,
                revision,
                letters,
            }) => DatagramRow {
                site,
                performed,
                letters: letters.len(),
                ..bare(TEXT, revision)
            },
        }
    }
}
