//! The ends of a line, played by what happens at them.

use super::client::{Again, Client, Heard};
use super::numbers::Numbers;
use super::server::{Numbered, Server, Text, Wanted};
use super::{Datagram, Message, Refusal};
use crate::datagram_row::DatagramRow;
use crate::event::{
    Event, Outcome, ANSWER, BEGIN, END, GIVE, GROW, HEAR, MESSAGE, PACKET, REFUSED, SAW, SEND,
    TICK, TOOK,
};

/// The number by which what is not taken is reported.
const NOT_TAKEN: u32 = 2;

impl Client {
    /// What comes of an event.
    pub fn step(&mut self, event: &Event) -> Outcome {
        let DatagramRow {
            connection, number, ..
        } = event.datagram;
        match event.kind {
            TICK => match self.tick() {
                Again::New => answered(2),
                Again::Numbers(numbers) => numbered(numbers),
            },
            PACKET => {
                // What does not come to a client counts as an entry here: only a text is another matter.
                let message = event.datagram.message(&[]);
                admitted(self.check(&packet(&event.datagram, message)).map(|()| 1))
            }
            HEAR => match self.hear(connection, number) {
                Heard::Nothing => answered(0),
                Heard::Goes(numbers) => numbered(numbers),
                Heard::Ended => answered(2),
            },
            MESSAGE => self.packet(number).map_or(answered(0), shown),
            ANSWER => self.answer().map_or(answered(0), shown),
            BEGIN => {
                self.begin(connection);
                answered(1)
            }
            SAW => {
                self.see();
                answered(1)
            }
            SEND => {
                let message = client_message(&event.datagram);
                numbered_if_any(message.and_then(|message| self.send(message)))
            }
            _ => Outcome {
                after: self.highest(),
                count: u32::from(self.is_asking()),
                ..answered(1)
            },
        }
    }
}

impl Server {
    /// What comes of an event.
    pub fn step(&mut self, event: &Event) -> Outcome {
        let DatagramRow {
            connection, number, ..
        } = event.datagram;
        match event.kind {
            TICK => numbered_if_any(self.tick()),
            PACKET => match client_message(&event.datagram) {
                None => answered(0),
                message => {
                    let wanted = self.check(&packet(&event.datagram, message));
                    admitted(wanted.map(|wanted| match wanted {
                        Wanted::Message => 1,
                        Wanted::Connection => 2,
                    }))
                }
            },
            HEAR => numbered_if_any(self.hear(connection, number)),
            MESSAGE => match self.numbered(number) {
                None => answered(0),
                Some(Numbered::Text) => answered(1),
                Some(Numbered::Entry(place)) => Outcome {
                    after: place,
                    ..answered(2)
                },
            },
            ANSWER => shown(self.answer(connection)),
            GIVE => {
                let text = Text {
                    site: 0,
                    performed: 0,
                    letters: vec![[7; 5]; event.datagram.letters],
                };
                self.give(connection, event.datagram.revision, text);
                answered(1)
            }
            TOOK => {
                self.take();
                answered(1)
            }
            GROW => numbered_if_any(self.grow()),
            END => {
                self.end();
                answered(1)
            }
            _ => self.connection().map_or(answered(0), |connection| {
                let letters = match self.text() {
                    Some(Message::Text { letters, .. }) => letters.len(),
                    _ => 0,
                };
                Outcome {
                    after: connection,
                    datagram: DatagramRow {
                        letters,
                        ..DatagramRow::default()
                    },
                    ..answered(1)
                }
            }),
        }
    }
}

fn packet<'a>(row: &DatagramRow, message: Option<Message<'a>>) -> Datagram<'a> {
    Datagram {
        connection: row.connection,
        number: row.number,
        message,
    }
}

/// What a client says, if it does.
fn client_message(row: &DatagramRow) -> Option<Message<'static>> {
    use crate::plain::operation::Operation;
    match row.message(&[])? {
        Message::Operation {
            operation: Operation::Nothing { .. },
            ..
        }
        | Message::Entry { .. }
        | Message::Text { .. } => None,
        message => Some(message),
    }
}

fn answered(answer: u8) -> Outcome {
    Outcome {
        answer,
        ..Outcome::default()
    }
}

fn admitted(answer: Result<u8, Refusal>) -> Outcome {
    answer.map_or(
        Outcome {
            after: NOT_TAKEN,
            ..answered(REFUSED)
        },
        answered,
    )
}

fn numbered(numbers: Numbers) -> Outcome {
    Outcome {
        after: (numbers.start - 1) as u32,
        count: (numbers.end - numbers.start) as u32,
        ..answered(1)
    }
}

fn numbered_if_any(numbers: Option<Numbers>) -> Outcome {
    numbers.map_or(answered(0), numbered)
}

fn shown(datagram: Datagram) -> Outcome {
    Outcome {
        datagram: datagram.into(),
        ..answered(1)
    }
}
