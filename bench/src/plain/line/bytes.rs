//! Datagrams as bytes. One is read by what its fields say, and then it has to be spelled just so: what is not written as it stands is refused.

use super::{Datagram, End, Message};
use crate::plain::operation::Operation;

const PACKET: u8 = 84;
const ACKNOWLEDGEMENT: u8 = 85;

const OPERATION: u8 = 1;
const ENTRY: u8 = 2;
const REVISION: u8 = 3;
const NEW: u8 = 4;
const TEXT: u8 = 5;

const NOTHING: u8 = 0;
const INSERT: u8 = 1;
const DELETE: u8 = 2;

/// How many bytes a packet has beside a text's letters, at most.
const MOST: usize = 29;

/// The length of the sum.
const SUM: usize = 2;

/// Reads what that end has sent, or nothing if the bytes are none of it.
pub fn read(bytes: &[u8], from: End) -> Option<Datagram<'_>> {
    let datagram = Cursor { rest: bytes }.datagram()?;
    let is_sent = datagram.message.is_none_or(|message| message.end() == from);
    (is_sent && write(&datagram)? == bytes).then_some(datagram)
}

/// The bytes of a datagram, if it can be said.
pub fn write(datagram: &Datagram) -> Option<Vec<u8>> {
    if !datagram.can_be_said() {
        return None;
    }
    let Datagram {
        connection,
        number,
        message,
    } = *datagram;
    let letters = match message {
        Some(Message::Text { letters, .. }) => letters,
        _ => &[],
    };
    let mut bytes = Vec::with_capacity(MOST + letters.as_flattened().len());
    bytes.push(if message.is_some() {
        PACKET
    } else {
        ACKNOWLEDGEMENT
    });
    put_words(&mut bytes, &[connection, number]);
    match message {
        None => {}
        Some(Message::Operation {
            revision,
            operation,
        }) => {
            bytes.push(OPERATION);
            put_words(&mut bytes, &[revision]);
            put_operation(&mut bytes, operation);
        }
        Some(Message::Entry { place, operation }) => {
            bytes.push(ENTRY);
            put_words(&mut bytes, &[place]);
            bytes.push(operation.site());
            put_operation(&mut bytes, operation);
        }
        Some(Message::Revision(revision)) => {
            bytes.push(REVISION);
            put_words(&mut bytes, &[revision]);
        }
        Some(Message::New) => bytes.push(NEW),
        Some(Message::Text {
            site,
            performed,
            revision,
            ..
        }) => {
            bytes.push(TEXT);
            put_words(&mut bytes, &[connection]);
            bytes.push(site);
            put_words(&mut bytes, &[performed, revision, letters.len() as u32]);
            bytes.extend_from_slice(letters.as_flattened());
        }
    }
    let sum = sum(&bytes);
    bytes.extend_from_slice(&sum.to_be_bytes());
    Some(bytes)
}

/// What stands at the end of a datagram.
pub fn sum(bytes: &[u8]) -> u16 {
    let add = |sum: u16, &byte: &u8| sum.wrapping_add(byte.into());
    bytes.iter().fold(0, add)
}

fn put_words(bytes: &mut Vec<u8>, words: &[u32]) {
    for word in words {
        bytes.extend_from_slice(&word.to_be_bytes());
    }
}

fn put_operation(bytes: &mut Vec<u8>, operation: Operation) {
    let (kind, place, letter) = match operation {
        Operation::Nothing { .. } => (NOTHING, 0, 0),
        Operation::Insert { place, letter, .. } => (INSERT, place, letter),
        Operation::Delete { place, .. } => (DELETE, place, 0),
    };
    bytes.push(kind);
    put_words(bytes, &[place, letter]);
}

/// Bytes that are read from the left.
struct Cursor<'a> {
    rest: &'a [u8],
}

impl<'a> Cursor<'a> {
    fn byte(&mut self) -> Option<u8> {
        let (&byte, rest) = self.rest.split_first()?;
        self.rest = rest;
        Some(byte)
    }

    fn word(&mut self) -> Option<u32> {
        let (&word, rest) = self.rest.split_first_chunk()?;
        self.rest = rest;
        Some(u32::from_be_bytes(word))
    }

    fn datagram(&mut self) -> Option<Datagram<'a>> {
        let is_packet = self.byte()? == PACKET;
        Some(Datagram {
            connection: self.word()?,
            number: self.word()?,
            message: if is_packet {
                Some(self.message()?)
            } else {
                None
            },
        })
    }

    fn message(&mut self) -> Option<Message<'a>> {
        Some(match self.byte()? {
            OPERATION => Message::Operation {
                revision: self.word()?,
                operation: self.operation(0)?,
            },
            ENTRY => {
                let place = self.word()?;
                let site = self.byte()?;
                let operation = self.operation(site)?;
                Message::Entry { place, operation }
            }
            REVISION => Message::Revision(self.word()?),
            NEW => Message::New,
            TEXT => self.text()?,
            _ => return None,
        })
    }

    fn operation(&mut self, site: u8) -> Option<Operation> {
        let kind = self.byte()?;
        let place = self.word()?;
        let letter = self.word()?;
        Some(match kind {
            NOTHING => Operation::Nothing { site },
            INSERT => Operation::Insert {
                site,
                place,
                letter,
            },
            DELETE => Operation::Delete { site, place },
            _ => return None,
        })
    }

    /// Its connection and how many letters it has are not looked at: only the right ones are written.
    fn text(&mut self) -> Option<Message<'a>> {
        self.word()?;
        let site = self.byte()?;
        let performed = self.word()?;
        let revision = self.word()?;
        self.word()?;
        let end = self.rest.len().checked_sub(SUM)?;
        Some(Message::Text {
            site,
            performed,
            revision,
            letters: self.rest[..end].as_chunks().0,
        })
    }
}

#[cfg(test)]
mod tests {
    use super::*;
    use crate::plain::line::examples::{Example, EXAMPLES};
    use crate::plain::line::{spell, take_letters, Letter, MOST_LETTERS};

    /// The bytes with the right sum at the end.
    fn mended(bytes: &[u8]) -> Vec<u8> {
        let (front, _) = bytes.split_at(bytes.len() - SUM);
        [front, &sum(front).to_be_bytes()].concat()
    }

    fn is_refused_by_both(bytes: &[u8]) -> bool {
        read(bytes, End::Client).is_none() && read(bytes, End::Server).is_none()
    }

    #[test]
    fn the_examples_are_written_and_read() {
        for Example {
            from,
            datagram,
            bytes,
        } in EXAMPLES
        {
            assert_eq!(write(&datagram).as_deref(), Some(bytes));
            assert_eq!(read(bytes, from), Some(datagram));
            let other = match from {
                End::Client => End::Server,
                End::Server => End::Client,
            };
            let both = datagram.message.is_none().then_some(datagram);
            assert_eq!(read(bytes, other), both);
        }
    }

    #[test]
    fn what_is_cut_short_or_longer_is_refused() {
        for Example { bytes, .. } in EXAMPLES {
            for length in 0..bytes.len() {
                assert!(is_refused_by_both(&bytes[..length]));
                if length >= SUM {
                    assert!(is_refused_by_both(&mended(&bytes[..length])));
                }
            }
            for behind in 0..=255 {
                let longer = [bytes, &[behind]].concat();
                assert!(is_refused_by_both(&longer));
                assert!(is_refused_by_both(&mended(&longer)));
            }
        }
    }

    #[test]
    fn each_byte_that_is_changed_is_refused() {
        for Example { bytes, .. } in EXAMPLES {
            let mut changed = bytes.to_vec();
            for place in 0..bytes.len() {
                for value in (0..=255).filter(|&value| value != bytes[place]) {
                    changed[place] = value;
                    assert!(is_refused_by_both(&changed));
                }
                changed[place] = bytes[place];
            }
        }
    }

    /// How many of the values that a byte can have, with the right sum, are read by an end.
    fn fits(bytes: &[u8], place: usize, from: End) -> usize {
        let mut changed = bytes.to_vec();
        let is_read = |&value: &u8| {
            changed[place] = value;
            read(&mended(&changed), from).is_some()
        };
        (0..=255).filter(is_read).count()
    }

    #[test]
    fn first_bytes_and_kinds_are_the_ones() {
        for Example {
            from,
            datagram,
            bytes,
        } in EXAMPLES
        {
            // None of the examples is another datagram with another first byte.
            assert_eq!(fits(bytes, 0, from), 1);
            if datagram.message.is_some() {
                assert_eq!(fits(bytes, 9, from), 1);
            }
        }
        let [new, insertion, deletion, _, entry, nothing, text, ..] = EXAMPLES;
        // The bytes of connection 0, of kinds, of sites, and of letters.
        for (example, place, count) in [
            (&new, 4, 1),
            (&insertion, 14, 1),
            (&deletion, 14, 1),
            (&deletion, 22, 1),
            (&entry, 14, 16),
            (&entry, 15, 1),
            (&entry, 20, 1),
            (&entry, 21, 17),
            (&entry, 23, 255),
            (&nothing, 15, 2),
            (&nothing, 19, 1),
            (&nothing, 23, 1),
            (&text, 4, 1),
            (&text, 13, 1),
            (&text, 14, 16),
            (&text, 26, 1),
            (&text, 28, 17),
            (&text, 30, 255),
            (&text, 31, 16),
        ] {
            assert_eq!(fits(example.bytes, place, example.from), count, "{place}");
        }
    }

    #[test]
    fn letters_have_a_last_one() {
        let insertion = |letter| Datagram {
            connection: 1,
            number: 1,
            message: Some(Message::Operation {
                revision: 0,
                operation: Operation::Insert {
                    site: 0,
                    place: 0,
                    letter,
                },
            }),
        };
        for letter in [1, 0xd800, 1_114_111] {
            assert!(write(&insertion(letter)).is_some());
        }
        for letter in [0, 1_114_112, u32::MAX] {
            assert_eq!(write(&insertion(letter)), None);
        }
    }

    #[test]
    fn a_full_text_is_as_long_as_it_can_be() {
        let numbers: Vec<u32> = (1..=MOST_LETTERS as u32 + 1).collect();
        let sites: Vec<u8> = numbers.iter().map(|number| (number % 16) as u8).collect();
        let letters = spell(&numbers, &sites);
        let text = |letters: &'static [Letter]| Datagram {
            connection: 1,
            number: 1,
            message: Some(Message::Text {
                site: 0,
                performed: 0,
                revision: 0,
                letters,
            }),
        };
        let letters: &'static [Letter] = letters.leak();
        assert_eq!(write(&text(letters)), None);
        let full = text(&letters[..MOST_LETTERS]);
        let bytes = write(&full).unwrap();
        assert_eq!(bytes.len(), 327_709);
        assert_eq!(read(&bytes, End::Server), Some(full));
        // The same with one letter more.
        let mut longer = bytes[..bytes.len() - SUM].to_vec();
        longer[23..27].copy_from_slice(&65_537_u32.to_be_bytes());
        longer.extend_from_slice(&[0, 0, 0, 97, 0, 0, 0]);
        assert_eq!(read(&mended(&longer), End::Server), None);
        let (mut taken, mut by) = (vec![0; MOST_LETTERS], vec![0; MOST_LETTERS]);
        take_letters(&letters[..MOST_LETTERS], &mut taken, &mut by);
        assert!(taken == numbers[..MOST_LETTERS] && by == sites[..MOST_LETTERS]);
    }
}
