//! The server and the writers of a script, and what is on its way between them.

use std::collections::VecDeque;
use std::fmt;

use crate::change::Action;
use crate::client::{Client, Message};
use crate::refusal::Refusal;
use crate::script::{Command, WRITERS};
use crate::server::{Server, Welcome};
use crate::text::Text;

/// What is told of a command. It is printed on a line.
#[derive(Clone, Copy, Debug, PartialEq, Eq)]
pub enum Event {
    /// A writer has joined anew, and so much of what it had done is lost.
    Lost { writer: u8, count: usize },
    /// Something was refused.
    Refused(Refusal),
    /// There was nothing to take or to see.
    Nothing,
}

impl fmt::Display for Event {
    fn fmt(&self, f: &mut fmt::Formatter) -> fmt::Result {
        match self {
            Event::Lost { writer, count } => write!(f, "{writer}: lost {count}"),
            Event::Refused(refusal) => write!(f, "refused {}", refusal.number()),
            Event::Nothing => write!(f, "nothing"),
        }
    }
}

impl From<Refusal> for Event {
    fn from(refusal: Refusal) -> Event {
        Event::Refused(refusal)
    }
}

/// All that a script works on.
#[derive(Debug, Default)]
pub struct Room {
    server: Server,
    /// The writers that have joined.
    writers: [Option<Writer>; WRITERS],
}

#[derive(Debug)]
struct Writer {
    client: Client,
    /// What it has sent and the server has not taken, the oldest first. What was refused stays.
    queue: VecDeque<Message>,
    /// How many operations it has performed since it joined.
    performed: usize,
    /// How many entries of the history were its own when it joined.
    entries_before: usize,
}

impl Writer {
    fn new(welcome: Welcome) -> Writer {
        Writer {
            entries_before: welcome.entries,
            client: Client::new(welcome),
            queue: VecDeque::new(),
            performed: 0,
        }
    }

    /// How many operations it has performed that the server has not taken.
    fn untaken(&self) -> usize {
        let is_operation = |message: &&Message| matches!(message, Message::Operation { .. });
        self.queue.iter().filter(is_operation).count()
    }
}

impl Room {
    /// The server's text.
    pub fn desk(&self) -> &Text {
        self.server.text()
    }

    /// The text of a writer that has joined.
    pub fn screen(&self, number: u8) -> Option<Text> {
        self.writer(number).map(|writer| writer.client.text())
    }

    /// How many letters the text has that the writer's next command is about.
    pub fn length(&self, number: u8) -> i64 {
        let connected = self.connected(number);
        connected.map_or(self.desk().length(), |writer| writer.client.length())
    }

    /// Whether the server can take something of the writer's.
    pub fn has_sent(&self, number: u8) -> bool {
        self.connected(number)
            .is_some_and(|writer| !writer.queue.is_empty())
    }

    /// Whether the writer can see something.
    pub fn has_to_see(&self, number: u8) -> bool {
        self.connected(number)
            .is_some_and(|writer| writer.client.revision() < self.server.revision())
    }

    fn writer(&self, number: u8) -> Option<&Writer> {
        self.writers.get(usize::from(number))?.as_ref()
    }

    fn connected(&self, number: u8) -> Option<&Writer> {
        self.writer(number)
            .filter(|_| self.server.is_connected(number))
    }

    /// A writer that has been named.
    fn named(&mut self, number: u8) -> &mut Writer {
        self.writers[usize::from(number)]
            .as_mut()
            .expect("who is named joins")
    }

    /// Does what the command asks for, and tells what is to be told. Nothing is done to show.
    pub fn play(&mut self, command: Command) -> Vec<Event> {
        let mut events = Vec::new();
        match command {
            Command::Edit(number, action) => {
                events.extend(self.name(number));
                events.extend(self.perform(number, action).err());
            }
            Command::Take(number) => {
                events.extend(self.name(number));
                events.extend(self.take(number).err());
            }
            Command::See(number) => {
                events.extend(self.name(number));
                events.extend(self.see(number).err());
            }
            Command::New(number) => {
                self.server.end(number);
                events.extend(self.name(number));
            }
            Command::Stop => self.server.restart(),
            Command::Settle => self.settle(&mut events),
            Command::Show => (),
        }
        events
    }

    /// The writer is named, and joins if it has no connection.
    fn name(&mut self, number: u8) -> Option<Event> {
        if self.server.is_connected(number) {
            return None;
        }
        let welcome = self
            .server
            .join(number)
            .expect("there are more sites than writers");
        assert_eq!(welcome.site, number);
        let entries = welcome.entries;
        let before = self.writers[usize::from(number)].replace(Writer::new(welcome))?;
        let count = before.untaken();
        // All others have come into the history.
        assert_eq!(before.performed - count, entries - before.entries_before);
        Some(Event::Lost {
            writer: number,
            count,
        })
    }

    /// The writer does something to its own text.
    fn perform(&mut self, number: u8, action: Action) -> Result<(), Event> {
        let writer = self.named(number);
        let message = writer.client.perform(action)?;
        writer.queue.push_back(message);
        writer.performed += 1;
        Ok(())
    }

    /// The server takes the writer's next operation, and hears the revisions before it.
    fn take(&mut self, number: u8) -> Result<(), Event> {
        loop {
            match self.receive(number)? {
                Some(Message::Revision(_)) => (),
                Some(Message::Operation { .. }) => return Ok(()),
                None => return Err(Event::Nothing),
            }
        }
    }

    /// The server takes all that the writer has sent.
    fn take_all(&mut self, number: u8) -> Result<(), Event> {
        while self.receive(number)?.is_some() {}
        Ok(())
    }

    /// The next message from the writer, if there is one, goes to the server.
    fn receive(&mut self, number: u8) -> Result<Option<Message>, Refusal> {
        match self.named(number).queue.front() {
            Some(&Message::Operation { action, revision }) => {
                self.server.take(number, action, revision)?;
            }
            Some(&Message::Revision(revision)) => self.server.hear(number, revision)?,
            None => (),
        }
        Ok(self.named(number).queue.pop_front())
    }

    /// The writer sees the next entry.
    fn see(&mut self, number: u8) -> Result<(), Event> {
        if self.see_next(number)? {
            Ok(())
        } else {
            Err(Event::Nothing)
        }
    }

    /// The writer sees all entries.
    fn see_all(&mut self, number: u8) -> Result<(), Event> {
        while self.see_next(number)? {}
        Ok(())
    }

    /// The next entry, if there is one, goes to the writer.
    fn see_next(&mut self, number: u8) -> Result<bool, Refusal> {
        let revision = self.named(number).client.revision();
        let Some(entry) = self.server.entry(revision) else {
            return Ok(false);
        };
        let writer = self.named(number);
        let message = writer.client.see(entry)?;
        writer.queue.extend(message);
        Ok(true)
    }

    /// Rounds, until one ends no connection.
    fn settle(&mut self, events: &mut Vec<Event>) {
        let has_joined = |&number: &u8| self.writer(number).is_some();
        let all: Vec<u8> = (0..).take(WRITERS).filter(has_joined).collect();
        loop {
            for &number in &all {
                events.extend(self.name(number));
            }
            for &number in &all {
                if self.server.is_connected(number) {
                    events.extend(self.take_all(number).err());
                }
            }
            for &number in &all {
                if self.server.is_connected(number) {
                    events.extend(self.see_all(number).err());
                }
            }
            // Who has lost the connection in this round has not got it back yet.
            if all.iter().all(|&number| self.server.is_connected(number)) {
                break;
            }
        }
    }
}
