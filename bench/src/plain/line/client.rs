//! A client's end of its line.

use super::numbers::{Numbers, Sender};
use super::{Datagram, Message, Refusal};

pub struct Client {
    /// The highest connection that it ever took.
    highest: u32,
    is_asking: bool,
    connection: Option<Connection>,
}

/// The connection `highest`: the last number that was taken in it, and all that was to be sent in it, number 1 first.
struct Connection {
    taken: u32,
    sender: Sender,
    messages: Vec<Message<'static>>,
}

/// What an acknowledgement says.
#[derive(Clone, Debug, PartialEq, Eq)]
pub enum Heard {
    Goes(Numbers),
    Ended,
    Nothing,
}

/// What a tick sends: `new`, or what is under way.
#[derive(Clone, Debug, PartialEq, Eq)]
pub enum Again {
    New,
    Numbers(Numbers),
}

impl Client {
    /// One that once took that connection, or none where it is 0.
    pub fn new(highest: u32) -> Client {
        Client {
            highest,
            is_asking: true,
            connection: None,
        }
    }

    pub fn highest(&self) -> u32 {
        self.highest
    }

    pub fn is_asking(&self) -> bool {
        self.is_asking
    }

    /// Whether a packet of the server is taken.
    pub fn check(&self, packet: &Datagram) -> Result<(), Refusal> {
        let taken = match packet.message {
            Some(Message::Text { .. }) if packet.connection > self.highest => 0,
            Some(Message::Text { .. }) => return Err(Refusal::Connection),
            _ if packet.connection == self.highest => {
                self.connection.as_ref().ok_or(Refusal::Connection)?.taken
            }
            _ => return Err(Refusal::Connection),
        };
        if u64::from(packet.number) == u64::from(taken) + 1 {
            Ok(())
        } else {
            Err(Refusal::Number)
        }
    }

    /// Begins anew with the text of a connection.
    pub fn begin(&mut self, connection: u32) {
        *self = Client {
            highest: connection,
            is_asking: false,
            connection: Some(Connection {
                taken: 1,
                sender: Sender::default(),
                messages: Vec::new(),
            }),
        };
    }

    /// It has seen the next entry.
    pub fn see(&mut self) {
        if let Some(connection) = &mut self.connection {
            connection.taken = connection.taken.saturating_add(1);
        }
    }

    /// The answer to what was taken, and to what was refused with 2.
    pub fn answer(&self) -> Option<Datagram<'static>> {
        let connection = self.connection.as_ref()?;
        Some(Datagram {
            connection: self.highest,
            number: connection.taken,
            message: None,
        })
    }

    /// An acknowledgement has come.
    pub fn hear(&mut self, connection: u32, last: u32) -> Heard {
        let Some(own) = &mut self.connection else {
            return Heard::Nothing;
        };
        if (connection, last) == (0, self.highest) {
            self.is_asking = true;
            Heard::Ended
        } else if connection == self.highest {
            Heard::Goes(own.sender.acknowledge(last))
        } else {
            Heard::Nothing
        }
    }

    /// There is a message to send. Gives what goes now.
    pub fn send(&mut self, message: Message<'static>) -> Option<Numbers> {
        let connection = self.connection.as_mut()?;
        let numbers = connection.sender.push()?;
        connection.messages.push(message);
        Some(numbers)
    }

    /// The packet with that number, until it is acknowledged.
    pub fn packet(&self, number: u32) -> Option<Datagram<'static>> {
        let connection = self.connection.as_ref()?;
        if u64::from(number) <= connection.sender.acknowledged() {
            return None;
        }
        Some(Datagram {
            connection: self.highest,
            number,
            message: Some(*connection.messages.get(number as usize - 1)?),
        })
    }

    /// What was sent in its connection and is not acknowledged.
    pub fn under_way(&self) -> Option<Numbers> {
        Some(self.connection.as_ref()?.sender.under_way())
    }

    pub fn tick(&self) -> Again {
        match self.under_way() {
            Some(numbers) if !self.is_asking => Again::Numbers(numbers),
            _ => Again::New,
        }
    }
}

#[cfg(test)]
mod tests {
    use super::*;
    use crate::plain::operation::Operation;

    fn text(connection: u32, number: u32) -> Datagram<'static> {
        Datagram {
            connection,
            number,
            message: Some(Message::Text {
                site: 0,
                performed: 0,
                revision: 0,
                letters: &[],
            }),
        }
    }

    fn entry(connection: u32, number: u32) -> Datagram<'static> {
        Datagram {
            connection,
            number,
            message: Some(Message::Entry {
                place: 0,
                operation: Operation::Nothing { site: 0 },
            }),
        }
    }

    #[test]
    fn a_text_of_a_higher_connection_is_taken() {
        let mut client = Client::new(3);
        assert_eq!((client.tick(), client.answer()), (Again::New, None));
        assert_eq!(client.check(&text(3, 1)), Err(Refusal::Connection));
        assert_eq!(client.check(&text(4, 2)), Err(Refusal::Number));
        assert_eq!(client.check(&entry(3, 1)), Err(Refusal::Connection));
        assert_eq!(client.check(&text(4, 1)), Ok(()));
        client.begin(4);
        assert_eq!(client.tick(), Again::Numbers(1..1));
        assert_eq!(client.check(&text(4, 1)), Err(Refusal::Connection));
        assert_eq!(client.check(&text(9, 1)), Ok(()));
        assert_eq!(client.check(&entry(4, 1)), Err(Refusal::Number));
        assert_eq!(client.check(&entry(4, 2)), Ok(()));
        client.see();
        assert_eq!(client.answer().map(|answer| answer.number), Some(2));
        assert_eq!(client.check(&entry(4, 2)), Err(Refusal::Number));
        assert_eq!(client.check(&entry(4, 3)), Ok(()));
    }

    #[test]
    fn it_sends_in_its_connection_until_that_has_ended() {
        let mut client = Client::new(0);
        assert_eq!(client.send(Message::Revision(0)), None);
        client.begin(1);
        for number in 1..=16 {
            let goes = client.send(Message::Revision(number)).unwrap();
            assert_eq!(goes, u64::from(number)..u64::from(number) + 1);
        }
        assert!(client.send(Message::Revision(17)).unwrap().is_empty());
        assert_eq!(client.hear(2, 5), Heard::Nothing);
        assert_eq!(client.hear(0, 2), Heard::Nothing);
        assert_eq!(client.hear(1, 5), Heard::Goes(17..18));
        assert_eq!(client.tick(), Again::Numbers(6..18));
        assert_eq!(client.packet(5), None);
        let message = |number| client.packet(number).and_then(|packet| packet.message);
        assert_eq!(message(6), Some(Message::Revision(6)));
        assert_eq!(message(17), Some(Message::Revision(17)));
        assert_eq!(message(18), None);
        assert_eq!(client.hear(0, 1), Heard::Ended);
        assert_eq!(client.tick(), Again::New);
        client.begin(2);
        assert!(!client.is_asking());
        assert_eq!(client.packet(17), None);
    }
}
