//! The line between a client and the server: what is sent at once, the numbers of messages, and the connections. By another way than the
//! proved code's where one is as natural.

pub mod bytes;
pub mod client;
pub mod events;
pub mod hexadecimal;
pub mod numbers;
pub mod rows;
pub mod server;

#[cfg(test)]
pub mod examples;

use super::operation::Operation;

/// A letter of a text as it stands in a message: its number, and its site.
pub type Letter = [u8; 5];

/// How many letters a text has at most.
pub const MOST_LETTERS: usize = 65_536;

const LAST_LETTER: u32 = 1_114_111;
const LAST_SITE: u8 = 15;

/// The end of a line that sends.
#[derive(Clone, Copy, Debug, PartialEq, Eq)]
pub enum End {
    Client,
    Server,
}

/// A packet, or where there is no message an acknowledgement.
#[derive(Clone, Copy, Debug, PartialEq, Eq)]
pub struct Datagram<'a> {
    pub connection: u32,
    /// The packet's, or the last that was taken.
    pub number: u32,
    pub message: Option<Message<'a>>,
}

#[derive(Clone, Copy, Debug, PartialEq, Eq)]
pub enum Message<'a> {
    /// Its site is not said.
    Operation {
        revision: u32,
        operation: Operation,
    },
    Entry {
        place: u32,
        operation: Operation,
    },
    Revision(u32),
    New,
    Text {
        site: u8,
        performed: u32,
        revision: u32,
        letters: &'a [Letter],
    },
}

/// Why a packet is not taken.
#[derive(Clone, Copy, Debug, PartialEq, Eq)]
pub enum Refusal {
    Connection,
    Number,
}

impl Message<'_> {
    /// Which end says it.
    fn end(&self) -> End {
        match self {
            Message::Operation { .. } | Message::Revision(_) | Message::New => End::Client,
            Message::Entry { .. } | Message::Text { .. } => End::Server,
        }
    }
}

impl Datagram<'_> {
    /// Whether it is within what a line can say.
    fn can_be_said(&self) -> bool {
        match self.message {
            None | Some(Message::Revision(_)) => true,
            Some(Message::Operation {
                operation: Operation::Nothing { .. },
                ..
            }) => false,
            Some(Message::Operation { operation, .. } | Message::Entry { operation, .. }) => {
                is_fit(operation)
            }
            Some(Message::New) => self.connection == 0,
            Some(Message::Text { site, letters, .. }) => {
                site <= LAST_SITE && letters.len() <= MOST_LETTERS && are_letters(letters)
            }
        }
    }
}

fn is_fit(operation: Operation) -> bool {
    let is_letter = match operation {
        Operation::Insert { letter, .. } => is_letter(letter),
        _ => true,
    };
    is_letter && operation.site() <= LAST_SITE
}

fn is_letter(number: u32) -> bool {
    (1..=LAST_LETTER).contains(&number)
}

/// All are looked at, without a branch.
fn are_letters(letters: &[Letter]) -> bool {
    letters.iter().fold(true, |is_good, letter| {
        let (number, site) = apart(letter);
        is_good & is_letter(number) & (site <= LAST_SITE)
    })
}

/// A letter's number, and its site.
fn apart(&[a, b, c, d, site]: &Letter) -> (u32, u8) {
    (u32::from_be_bytes([a, b, c, d]), site)
}

/// The letters with these numbers and sites.
pub fn spell(numbers: &[u32], sites: &[u8]) -> Vec<Letter> {
    let both = numbers.iter().zip(sites);
    both.map(|(number, &site)| {
        let [a, b, c, d] = number.to_be_bytes();
        [a, b, c, d, site]
    })
    .collect()
}

/// Takes the numbers and the sites out of letters.
pub fn take_letters(letters: &[Letter], numbers: &mut [u32], sites: &mut [u8]) {
    for ((letter, number), site) in letters.iter().zip(numbers).zip(sites) {
        (*number, *site) = apart(letter);
    }
}
