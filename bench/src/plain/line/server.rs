//! The server's end of a line.

use super::numbers::{Numbers, Sender};
use super::{Datagram, Letter, Message, Refusal};

/// The connection that it has given, if there is one.
#[derive(Default)]
pub struct Server {
    connection: Option<Connection>,
}

struct Connection {
    number: u32,
    taken: u32,
    sender: Sender,
    /// The first entry behind the text.
    base: u32,
    /// Until it is acknowledged.
    text: Option<Text>,
}

/// The text that a connection begins with.
#[derive(Clone, Debug, PartialEq, Eq)]
pub struct Text {
    pub site: u8,
    pub performed: u32,
    pub letters: Vec<Letter>,
}

/// What a client wants of the server.
#[derive(Clone, Copy, Debug, PartialEq, Eq)]
pub enum Wanted {
    Connection,
    Message,
}

/// What a number stands for.
#[derive(Clone, Copy, Debug, PartialEq, Eq)]
pub enum Numbered {
    Text,
    Entry(u32),
}

impl Server {
    pub fn connection(&self) -> Option<u32> {
        Some(self.connection.as_ref()?.number)
    }

    /// Whether a packet of a client is taken, and what it wants.
    pub fn check(&self, packet: &Datagram) -> Result<Wanted, Refusal> {
        let is_new = packet.message == Some(Message::New);
        match &self.connection {
            _ if is_new && (packet.connection, packet.number) == (0, 1) => Ok(Wanted::Connection),
            Some(own) if !is_new && own.number == packet.connection => {
                let next = own.taken.checked_add(1);
                (next == Some(packet.number))
                    .then_some(Wanted::Message)
                    .ok_or(Refusal::Number)
            }
            _ => Err(Refusal::Connection),
        }
    }

    /// The line gets that connection, which begins with a text as of place `base` of the history.
    pub fn give(&mut self, connection: u32, base: u32, text: Text) {
        let mut sender = Sender::default();
        sender.push();
        self.connection = Some(Connection {
            number: connection,
            taken: 0,
            sender,
            base,
            text: Some(text),
        });
    }

    pub fn end(&mut self) {
        self.connection = None;
    }

    /// It has taken the next message.
    pub fn take(&mut self) {
        if let Some(own) = &mut self.connection {
            own.taken = own.taken.saturating_add(1);
        }
    }

    /// The answer to a packet of that connection.
    pub fn answer(&self, connection: u32) -> Datagram<'static> {
        let own = self.connection.as_ref();
        let (connection, number) = own.map_or((0, connection), |own| (own.number, own.taken));
        Datagram {
            connection,
            number,
            message: None,
        }
    }

    /// An acknowledgement has come. Gives what goes now.
    pub fn hear(&mut self, connection: u32, last: u32) -> Option<Numbers> {
        let own = self.connection.as_mut()?;
        if own.number != connection {
            return None;
        }
        let numbers = own.sender.acknowledge(last);
        own.text.take_if(|_| own.sender.acknowledged() >= 1);
        Some(numbers)
    }

    /// The history has one entry more. Gives what goes now.
    pub fn grow(&mut self) -> Option<Numbers> {
        self.connection.as_mut()?.sender.push()
    }

    pub fn tick(&self) -> Option<Numbers> {
        Some(self.connection.as_ref()?.sender.under_way())
    }

    /// What that number stands for, if it ever was to be sent.
    pub fn numbered(&self, number: u32) -> Option<Numbered> {
        let own = self.connection.as_ref()?;
        if !own.sender.has(number) {
            return None;
        }
        match number.checked_sub(2) {
            None => Some(Numbered::Text),
            Some(entries) => own.base.checked_add(entries).map(Numbered::Entry),
        }
    }

    /// The text as a message, until it is acknowledged.
    pub fn text(&self) -> Option<Message<'_>> {
        let own = self.connection.as_ref()?;
        let text = own.text.as_ref()?;
        Some(Message::Text {
            site: text.site,
            performed: text.performed,
            revision: own.base,
            letters: &text.letters,
        })
    }
}

#[cfg(test)]
mod tests {
    use super::*;

    fn packet(connection: u32, number: u32, message: Message<'static>) -> Datagram<'static> {
        Datagram {
            connection,
            number,
            message: Some(message),
        }
    }

    fn given(connection: u32, base: u32) -> Server {
        let mut server = Server::default();
        let text = Text {
            site: 3,
            performed: 0,
            letters: vec![[0, 0, 0, 97, 0]],
        };
        server.give(connection, base, text);
        server
    }

    #[test]
    fn only_who_is_new_is_taken_without_a_connection() {
        let (new, revision) = (Message::New, Message::Revision(0));
        for server in [Server::default(), given(5, 0)] {
            assert_eq!(server.check(&packet(0, 1, new)), Ok(Wanted::Connection));
            assert_eq!(server.check(&packet(0, 2, new)), Err(Refusal::Connection));
            assert_eq!(
                server.check(&packet(0, 1, revision)),
                Err(Refusal::Connection)
            );
        }
        let server = Server::default();
        assert_eq!(
            server.check(&packet(5, 1, revision)),
            Err(Refusal::Connection)
        );
        let answer = server.answer(5);
        assert_eq!((answer.connection, answer.number), (0, 5));
    }

    #[test]
    fn what_is_next_is_taken() {
        let mut server = given(5, 0);
        let revision = |number| packet(5, number, Message::Revision(0));
        assert_eq!(server.check(&revision(1)), Ok(Wanted::Message));
        server.take();
        assert_eq!(server.check(&revision(1)), Err(Refusal::Number));
        assert_eq!(server.check(&revision(2)), Ok(Wanted::Message));
        let answer = server.answer(4);
        assert_eq!((answer.connection, answer.number), (5, 1));
        server.end();
        assert_eq!(server.check(&revision(2)), Err(Refusal::Connection));
    }

    #[test]
    fn entries_follow_the_text() {
        let mut server = given(5, u32::MAX - 1);
        assert_eq!(server.tick(), Some(1..2));
        assert_eq!(server.grow(), Some(2..3));
        assert_eq!(server.grow(), Some(3..4));
        assert_eq!(server.grow(), Some(4..5));
        assert_eq!(server.numbered(0), None);
        assert_eq!(server.numbered(1), Some(Numbered::Text));
        assert_eq!(server.numbered(2), Some(Numbered::Entry(u32::MAX - 1)));
        assert_eq!(server.numbered(3), Some(Numbered::Entry(u32::MAX)));
        assert_eq!(server.numbered(4), None);
        assert_eq!(server.numbered(5), None);
        assert_eq!(server.hear(4, 1), None);
        assert!(server.text().is_some());
        assert_eq!(server.hear(5, 1), Some(5..5));
        assert_eq!(server.text(), None);
        assert_eq!(server.tick(), Some(2..5));
    }
}
