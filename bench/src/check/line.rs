//! Random datagrams, written and read by both: those at the limits of what can be said, and such as a bad line makes of them.

use compare::random::Random;

use crate::datagram_row::{
    DatagramRow, Said, ACKNOWLEDGEMENT, ENTRY, NEW, OPERATION, REVISION, TEXT,
};
use crate::plain::line::bytes::sum;
use crate::plain::line::{hexadecimal, rows, MOST_LETTERS};
use crate::proved::line as proved;
use crate::row::{DELETE, INSERT, NOTHING};

/// How many datagrams there are, and beside them those with about as many letters as a text can have.
const SHORT: u64 = 20_000;
const LONG: u64 = 12;

/// How many of the first are written as text, too.
const HEXADECIMAL: u64 = 2_000;

/// How often one is damaged.
const DAMAGES: usize = 12;

/// At these and around them one thing ends and another begins.
const LIMITS: [u32; 16] = [
    0,
    1,
    15,
    16,
    255,
    256,
    65_535,
    65_536,
    65_537,
    1_114_110,
    1_114_111,
    1_114_112,
    1 << 24,
    1 << 31,
    u32::MAX - 1,
    u32::MAX,
];

/// Where the fields are.
const SUM: usize = 2;
const WIDTH: usize = 5;
const MESSAGE: usize = 9;
const ENTRY_SITE: usize = 14;
const TEXT_CONNECTION: usize = 10;
const TEXT_SITE: usize = 14;
const TEXT_COUNT: usize = 23;
const TEXT_LETTERS: usize = 27;

/// Writes and reads the random datagrams of a seed, and says how many there are, or where the two differ.
pub fn check(seed: u64) -> Result<usize, String> {
    let mut count = 0;
    for number in 0..SHORT + LONG {
        let mut maker = Maker::new(seed, number);
        let said = maker.some_said(number >= SHORT);
        let Some(bytes) = written_alike(&said)? else {
            count += 1;
            continue;
        };
        let faults = FAULTS.iter().filter_map(|(name, spoil)| {
            let spoiled = spoil(&mut maker.random, &said.row, bytes.clone())?;
            Some((name, spoiled))
        });
        for (name, spoiled) in faults.collect::<Vec<_>>() {
            if read_alike(&spoiled)? != 0 {
                return Err(format!("{name} is not refused: {}", shown(&spoiled)));
            }
            count += 1;
        }
        for _ in 0..DAMAGES {
            read_alike(&maker.some_damage(&bytes))?;
            count += 1;
        }
        if number < HEXADECIMAL {
            hexadecimal_alike(&mut maker, &bytes)?;
        }
    }
    Ok(count)
}

/// Bytes as text, and what becomes of that when a character is changed or goes.
fn hexadecimal_alike(maker: &mut Maker, bytes: &[u8]) -> Result<(), String> {
    let mut text = hexadecimal::write(bytes).into_bytes();
    if proved::write_hexadecimal(bytes).as_ref() != Some(&text) {
        return Err(format!("hexadecimal text differs: {}", shown(bytes)));
    }
    for _ in 0..DAMAGES {
        if proved::read_hexadecimal(&text) != hexadecimal::read(&text) {
            return Err(format!("hexadecimal text is read in two ways: {text:?}"));
        }
        let place = maker.random.below(text.len());
        if maker.random.one_in(4) {
            text.remove(place);
        } else {
            let any = maker.random.below(256) as u8;
            text[place] = maker
                .random
                .pick(&[b'0', b'9', b'a', b'F', b'A', b'f', any]);
        }
    }
    Ok(())
}

/// The bytes of what is said. Where there are any, one end reads them, or of an acknowledgement both.
fn written_alike(said: &Said) -> Result<Option<Vec<u8>>, String> {
    let bytes = rows::write(said);
    if proved::write(said) != bytes {
        return Err(format!("the bytes differ: {:?}", said.row));
    }
    if let Some(bytes) = &bytes {
        let ends = if said.row.kind == ACKNOWLEDGEMENT {
            2
        } else {
            1
        };
        if read_alike(bytes)? != ends {
            return Err(format!("what is written is not read: {}", shown(bytes)));
        }
    }
    Ok(bytes)
}

/// How many of the two ends read the bytes.
fn read_alike(bytes: &[u8]) -> Result<usize, String> {
    let at_server = rows::read_at_server(bytes);
    let at_client = rows::read_at_client(bytes);
    if proved::read_at_server(bytes) != at_server || proved::read_at_client(bytes) != at_client {
        return Err(format!("bytes are read in two ways: {}", shown(bytes)));
    }
    if proved::is_read(bytes) != at_client.is_some() {
        return Err(format!("bytes are read and not read: {}", shown(bytes)));
    }
    Ok(usize::from(at_server.is_some()) + usize::from(at_client.is_some()))
}

fn shown(bytes: &[u8]) -> String {
    let text = hexadecimal::write(&bytes[..bytes.len().min(200)]);
    format!("{} bytes, {text}", bytes.len())
}

/// Puts the right sum at the end.
fn mend(bytes: &mut [u8]) {
    let (front, end) = bytes.split_at_mut(bytes.len() - SUM);
    end.copy_from_slice(&sum(front).to_be_bytes());
}

fn put_word(bytes: &mut [u8], place: usize, word: u32) {
    bytes[place..place + 4].copy_from_slice(&word.to_be_bytes());
}

/// Makes something of a datagram's bytes that has to be refused, if it can.
type Spoil = fn(&mut Random, &DatagramRow, Vec<u8>) -> Option<Vec<u8>>;

/// One for each reason that docs/PROTOCOL.md has.
const FAULTS: [(&str, Spoil); 17] = [
    ("another first byte", |random, _, mut bytes| {
        bytes[0] = other_than(random, bytes[0]);
        mended(bytes)
    }),
    (
        "another first byte of a message",
        |random, row, mut bytes| {
            has_message(row)?;
            bytes[MESSAGE] = other_than(random, bytes[MESSAGE]);
            mended(bytes)
        },
    ),
    ("fewer bytes", |random, _, mut bytes| {
        bytes.truncate(random.between(SUM, bytes.len() - 1));
        mended(bytes)
    }),
    ("more bytes", |random, _, mut bytes| {
        for _ in 0..random.pick(&[1, 1, 5, 10]) {
            bytes.push(random.below(256) as u8);
        }
        mended(bytes)
    }),
    ("a wrong sum", |random, _, mut bytes| {
        let place = bytes.len() - random.between(1, SUM);
        bytes[place] = other_than(random, bytes[place]);
        Some(bytes)
    }),
    ("another kind", |random, row, mut bytes| {
        let place = change_at(row)?;
        let least = usize::from(row.kind == ENTRY) * 3;
        bytes[place] = random.pick(&[least as u8, 3, 4, 255]);
        mended(bytes)
    }),
    (
        "an insertion of a letter that is none",
        |random, row, mut bytes| {
            let place = change_at(row)? + 5;
            if row.change != INSERT {
                return None;
            }
            put_word(&mut bytes, place, no_letter(random));
            mended(bytes)
        },
    ),
    (
        "a letter of a deletion or of nothing",
        |random, row, mut bytes| {
            let place = change_at(row)? + 5 + random.below(4);
            if row.change == INSERT {
                return None;
            }
            bytes[place] = random.between(1, 255) as u8;
            mended(bytes)
        },
    ),
    ("a place of nothing", |random, row, mut bytes| {
        let place = change_at(row)? + 1 + random.below(4);
        if row.change == INSERT || row.change == DELETE {
            return None;
        }
        bytes[place] = random.between(1, 255) as u8;
        mended(bytes)
    }),
    ("a site of an entry above 15", |random, row, mut bytes| {
        (row.kind == ENTRY).then_some(())?;
        bytes[ENTRY_SITE] = random.between(16, 255) as u8;
        mended(bytes)
    }),
    ("a site of a text above 15", |random, row, mut bytes| {
        (row.kind == TEXT).then_some(())?;
        bytes[TEXT_SITE] = random.between(16, 255) as u8;
        mended(bytes)
    }),
    ("a site of a letter above 15", |random, row, mut bytes| {
        let place = some_letter_at(random, row, &bytes)?;
        bytes[place + 4] = random.between(16, 255) as u8;
        mended(bytes)
    }),
    (
        "a letter of a text that is none",
        |random, row, mut bytes| {
            let place = some_letter_at(random, row, &bytes)?;
            put_word(&mut bytes, place, no_letter(random));
            mended(bytes)
        },
    ),
    ("more letters than a text has", |_, row, mut bytes| {
        let full = TEXT_LETTERS + WIDTH * MOST_LETTERS + SUM;
        (row.kind == TEXT && bytes.len() == full).then_some(())?;
        bytes.truncate(full - SUM);
        bytes.extend_from_slice(&[0, 0, 0, 97, 0, 0, 0]);
        put_word(&mut bytes, TEXT_COUNT, MOST_LETTERS as u32 + 1);
        mended(bytes)
    }),
    ("another number of letters", |random, row, mut bytes| {
        (row.kind == TEXT).then_some(())?;
        let place = TEXT_COUNT + random.below(4);
        bytes[place] = other_than(random, bytes[place]);
        mended(bytes)
    }),
    ("a text of another connection", |random, row, mut bytes| {
        (row.kind == TEXT).then_some(())?;
        let place = TEXT_CONNECTION + random.below(4);
        bytes[place] = other_than(random, bytes[place]);
        mended(bytes)
    }),
    ("who is new in a connection", |random, row, mut bytes| {
        (row.kind == NEW).then_some(())?;
        bytes[1 + random.below(4)] = random.between(1, 255) as u8;
        mended(bytes)
    }),
];

fn mended(mut bytes: Vec<u8>) -> Option<Vec<u8>> {
    mend(&mut bytes);
    Some(bytes)
}

fn other_than(random: &mut Random, byte: u8) -> u8 {
    byte.wrapping_add(random.between(1, 255) as u8)
}

fn no_letter(random: &mut Random) -> u32 {
    let above = random.between(1_114_112, u32::MAX as usize) as u32;
    random.pick(&[0, 1_114_112, above, u32::MAX])
}

fn has_message(row: &DatagramRow) -> Option<()> {
    (row.kind != ACKNOWLEDGEMENT).then_some(())
}

/// Where it stands what an operation or an entry does.
fn change_at(row: &DatagramRow) -> Option<usize> {
    match row.kind {
        OPERATION => Some(14),
        ENTRY => Some(15),
        _ => None,
    }
}

/// Where a letter of a text is, if it has any.
fn some_letter_at(random: &mut Random, row: &DatagramRow, bytes: &[u8]) -> Option<usize> {
    let count = bytes.len().checked_sub(TEXT_LETTERS + SUM)? / WIDTH;
    (row.kind == TEXT && count > 0).then(|| TEXT_LETTERS + WIDTH * random.below(count))
}

struct Maker {
    random: Random,
    /// Once in so many times something cannot be said.
    wrong: usize,
}

impl Maker {
    fn new(seed: u64, number: u64) -> Maker {
        let mut random = Random::of(&[seed, u64::from(TEXT), number]);
        let wrong = random.pick(&[8, 50, 1_000]);
        Maker { random, wrong }
    }

    fn is_wrong(&mut self) -> bool {
        self.random.one_in(self.wrong)
    }

    fn some_number(&mut self) -> u32 {
        match self.random.below(3) {
            0 => self.random.pick(&LIMITS),
            1 => self.random.below(1_000) as u32,
            _ => self.random.between(0, u32::MAX as usize) as u32,
        }
    }

    fn some_site(&mut self) -> u8 {
        if self.is_wrong() {
            self.random.pick(&[16, 17, 255])
        } else {
            self.random.below(16) as u8
        }
    }

    fn some_letter(&mut self) -> u32 {
        if self.is_wrong() {
            return no_letter(&mut self.random);
        }
        let any = self.random.between(1, 1_114_111) as u32;
        self.random
            .pick(&[1, 97, 255, 256, 55_296, 65_536, any, any, 1_114_111])
    }

    /// What somebody says, or with about as many letters as a text can have.
    fn some_said(&mut self, is_long: bool) -> Said {
        let kinds = [
            ACKNOWLEDGEMENT,
            OPERATION,
            OPERATION,
            ENTRY,
            ENTRY,
            REVISION,
            NEW,
            TEXT,
        ];
        let kind = if is_long {
            TEXT
        } else if self.is_wrong() {
            self.random.pick(&[6, 84, 85, 255])
        } else {
            self.random.pick(&kinds)
        };
        let change = if self.is_wrong() {
            self.random.pick(&[NOTHING, 3, 255])
        } else if kind == ENTRY {
            self.random.pick(&[NOTHING, INSERT, DELETE])
        } else {
            self.random.pick(&[INSERT, DELETE])
        };
        let connection = if kind == NEW && !self.is_wrong() {
            0
        } else {
            self.some_number()
        };
        let row = DatagramRow {
            kind,
            change,
            site: self.some_site(),
            connection,
            number: self.some_number(),
            revision: self.some_number(),
            place: self.some_number(),
            letter: self.some_letter(),
            performed: self.some_number(),
            letters: 0,
        };
        let length = if is_long {
            self.wrong = 1_000_000;
            MOST_LETTERS + self.random.below(3) - 1
        } else if kind == TEXT {
            let any = self.random.below(70);
            self.random.pick(&[0, 1, 2, 3, any])
        } else {
            0
        };
        let longer = usize::from(self.is_wrong());
        Said {
            row,
            letters: (0..length).map(|_| self.some_letter()).collect(),
            sites: (0..length + longer).map(|_| self.some_site()).collect(),
        }
    }

    /// What becomes of bytes on the way, and sometimes with the right sum all the same.
    fn some_damage(&mut self, bytes: &[u8]) -> Vec<u8> {
        let mut bytes = bytes.to_vec();
        let random = &mut self.random;
        match random.below(8) {
            0 => bytes.truncate(random.below(bytes.len())),
            1 => bytes.push(random.below(256) as u8),
            2 => {
                // Two bytes change places.
                let (one, other) = (random.below(bytes.len()), random.below(bytes.len()));
                bytes.swap(one, other);
            }
            3 => {
                let place = random.below(bytes.len() - 3);
                put_word(&mut bytes, place, random.pick(&LIMITS));
            }
            4 => {
                // Whatever comes, with a beginning that is right.
                let front = random.pick(&[0, 1, MESSAGE, MESSAGE + 1]);
                bytes.truncate(front);
                let length = random.pick(&[2, 11, 12, 16, 25, 26, 29, 34]);
                while bytes.len() < length {
                    bytes.push(random.pick(&[0, 1, 2, 3, 4, 5, 84, 85, 255]));
                }
            }
            _ => {
                let place = random.below(bytes.len());
                bytes[place] = other_than(random, bytes[place]);
            }
        }
        if bytes.len() >= SUM && random.one_in(2) {
            mend(&mut bytes);
        }
        bytes
    }
}

#[cfg(test)]
mod tests {
    use super::*;
    use crate::plain::line::examples::EXAMPLES;
    use crate::plain::line::End;

    #[test]
    fn the_examples_are_read_and_written_by_the_proved_code() {
        for example in EXAMPLES {
            let at_server = proved::read_at_server(example.bytes);
            let at_client = proved::read_at_client(example.bytes);
            let row = DatagramRow::from(example.datagram);
            match example.from {
                End::Client => assert_eq!(at_server, Some(row)),
                End::Server => assert_eq!(at_client.as_ref().map(|said| said.row), Some(row)),
            }
            let said = at_client.unwrap_or(Said {
                row,
                ..Said::default()
            });
            assert_eq!(proved::write(&said).as_deref(), Some(example.bytes));
        }
    }

    #[test]
    fn each_first_part_and_each_changed_byte_of_the_examples_is_refused() {
        for example in EXAMPLES {
            let bytes = example.bytes;
            for length in 0..bytes.len() {
                assert_eq!(read_alike(&bytes[..length]), Ok(0));
                for value in (0..=255).filter(|&value| value != bytes[length]) {
                    let mut changed = bytes.to_vec();
                    changed[length] = value;
                    assert_eq!(read_alike(&changed), Ok(0));
                    mend(&mut changed);
                    assert!(read_alike(&changed).is_ok());
                }
            }
            for behind in 0..=255 {
                let mut longer = [bytes, &[behind]].concat();
                assert_eq!(read_alike(&longer), Ok(0));
                mend(&mut longer);
                assert_eq!(read_alike(&longer), Ok(0));
            }
        }
    }

    #[test]
    fn each_fault_comes_and_most_can_be_said() {
        let mut faults = [0; FAULTS.len()];
        let (mut written, mut read, mut damaged) = (0, 0, 0);
        for number in 0..SHORT + LONG {
            let mut maker = Maker::new(1, number);
            let said = maker.some_said(number >= SHORT);
            let Some(bytes) = rows::write(&said) else {
                continue;
            };
            written += 1;
            for (count, (_, spoil)) in faults.iter_mut().zip(FAULTS) {
                *count += usize::from(spoil(&mut maker.random, &said.row, bytes.clone()).is_some());
            }
            if number < SHORT {
                for _ in 0..DAMAGES {
                    let damage = maker.some_damage(&bytes);
                    damaged += 1;
                    read += read_alike(&damage).unwrap();
                }
            }
        }
        for (count, (name, _)) in faults.iter().zip(FAULTS) {
            let least = if name.starts_with("more letters") {
                2
            } else {
                300
            };
            assert!(*count >= least, "{name}: {count}");
        }
        assert!(written * 2 > SHORT, "{written}");
        assert!(
            read * 10 > damaged && read * 2 < damaged,
            "{read} of {damaged}"
        );
    }
}
