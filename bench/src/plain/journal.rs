//! The server's journal: a file of records, read from its start and written at its end. What may stand at the end of it is found by what
//! each field of a record can still be, as ranges.

use std::fs::{File, OpenOptions};
use std::io::{self, ErrorKind, Read, Seek, SeekFrom, Write};
use std::ops::Range;
use std::path::Path;

use super::operation::{Entry, Operation, MOST_ENTRIES};
use super::text::{Text, RECORD};

/// The first bytes of records, and how long these are.
const ENTRY: u8 = 2;
const CONNECTION: u8 = 6;
const ENTRY_LENGTH: usize = 15;
const CONNECTION_LENGTH: usize = 5;

const NOTHING: u8 = 0;
const INSERT: u8 = 1;
const DELETE: u8 = 2;

/// Where the fields are.
const NUMBER_AT: usize = 1;
const SITE_AT: usize = 5;
const KIND_AT: usize = 6;
const PLACE_AT: usize = 7;
const LETTER_AT: usize = 11;

const LAST_SITE: u8 = 15;
const LAST_LETTER: u32 = 1_114_111;

/// The highest number of a connection.
pub const LAST_CONNECTION: u32 = 4_294_967_294;

/// How many bytes are read at a time.
const PART: usize = 65_536;

#[derive(Clone, Copy, Debug, PartialEq, Eq)]
pub enum Record {
    Entry(Entry),
    Connection(u32),
}

/// Why a record cannot come next, by the number that is reported.
#[derive(Clone, Copy, Debug, PartialEq, Eq, PartialOrd, Ord)]
pub enum Refusal {
    Malformed = 1,
    NotAbove = 2,
    BeyondText = 3,
    NotNext = 6,
    Full = 7,
}

/// Why a call does nothing, or fails.
#[derive(Debug)]
pub enum Error {
    /// It was not opened, or a call of its file has failed since.
    NotOpen,
    Refused(Refusal),
    /// What stands at this byte cannot come next.
    Damaged {
        at: u64,
        refusal: Refusal,
    },
    File,
}

impl From<io::Error> for Error {
    fn from(_: io::Error) -> Error {
        Error::File
    }
}

/// What the records of a journal make. The connection is the highest, 0 for none.
pub struct Contents {
    pub text: Text,
    pub history: Vec<Operation>,
    pub connection: u32,
}

/// A number in a wider type than it has, so that there is one behind the last.
type Numbers = Range<u64>;

/// What the fields of a kind of entry can be: the places that can be said and those that fit the text, and the letters.
struct Shape {
    kind: u8,
    places: Numbers,
    fitting: Numbers,
    letters: Numbers,
    is_full: bool,
}

impl Contents {
    pub fn nothing() -> Contents {
        Contents {
            text: Text::with_room(RECORD),
            history: Vec::new(),
            connection: 0,
        }
    }

    pub fn letters(&self) -> usize {
        self.text.letters().len()
    }

    /// The place in the history of the next entry.
    pub fn next(&self) -> u32 {
        self.history.len() as u32
    }

    fn is_history_full(&self) -> bool {
        self.next() >= MOST_ENTRIES
    }

    /// Why a record cannot come next, if it cannot.
    pub fn refusal(&self, record: Record) -> Option<Refusal> {
        match record {
            Record::Entry(Entry { place, operation }) => {
                let letters = self.letters();
                let (is_letter, fits, has_room) = match operation {
                    Operation::Nothing { .. } => (true, true, true),
                    Operation::Insert { place, letter, .. } => (
                        (1..=LAST_LETTER).contains(&letter),
                        place as usize <= letters,
                        letters < RECORD,
                    ),
                    Operation::Delete { place, .. } => (true, (place as usize) < letters, true),
                };
                first_of([
                    (
                        !is_letter || operation.site() > LAST_SITE,
                        Refusal::Malformed,
                    ),
                    (!fits, Refusal::BeyondText),
                    (place != self.next(), Refusal::NotNext),
                    (!has_room || self.is_history_full(), Refusal::Full),
                ])
            }
            Record::Connection(connection) => first_of([
                (connection <= self.connection, Refusal::NotAbove),
                (connection > LAST_CONNECTION, Refusal::Full),
            ]),
        }
    }

    /// Takes a record in that can come next.
    pub fn take(&mut self, record: Record) {
        match record {
            Record::Entry(Entry { operation, .. }) => {
                self.history.push(operation);
                // That it fits is known.
                let _ = self.text.apply(operation, RECORD);
            }
            Record::Connection(connection) => self.connection = connection,
        }
    }

    /// Takes in the whole records that the bytes begin with, and says how long those are; or where one cannot come next.
    fn replay(&mut self, bytes: &[u8]) -> Result<usize, (usize, Refusal)> {
        let mut at = 0;
        while let Some(&first) = bytes.get(at) {
            let length = length(first).ok_or((at, Refusal::Malformed))?;
            let Some(bytes) = bytes.get(at..at + length) else {
                break;
            };
            let record = read(bytes).ok_or((at, Refusal::Malformed))?;
            if let Some(refusal) = self.refusal(record) {
                return Err((at, refusal));
            }
            self.take(record);
            at += length;
        }
        Ok(at)
    }

    /// Why less than a record cannot stand at the end, if it cannot: where no record that can come next begins so.
    fn end_refusal(&self, end: &[u8]) -> Option<Refusal> {
        let can_be = |at, width, wanted: &Numbers| meet(&possible(end, at, width), wanted);
        if end.first() == Some(&CONNECTION) {
            let above = u64::from(self.connection) + 1..u64::from(LAST_CONNECTION) + 1;
            return first_of([(!can_be(NUMBER_AT, 4, &above), Refusal::NotAbove)]);
        }
        let is_fit_site = can_be(SITE_AT, 1, &(0..u64::from(LAST_SITE) + 1));
        let is_next = can_be(NUMBER_AT, 4, &just(self.next()));
        let refusals = self.shapes().map(|shape| {
            let can_be_said = is_fit_site
                && can_be(KIND_AT, 1, &just(shape.kind.into()))
                && can_be(PLACE_AT, 4, &shape.places)
                && can_be(LETTER_AT, 4, &shape.letters);
            first_of([
                (!can_be_said, Refusal::Malformed),
                (!can_be(PLACE_AT, 4, &shape.fitting), Refusal::BeyondText),
                (!is_next, Refusal::NotNext),
                (shape.is_full || self.is_history_full(), Refusal::Full),
            ])
        });
        // Of the kinds that it can be, the one that gets furthest.
        let far = |refusal: &Option<Refusal>| refusal.map_or(u8::MAX, |refusal| refusal as u8);
        refusals.into_iter().max_by_key(far).flatten()
    }

    fn shapes(&self) -> [Shape; 3] {
        let letters = self.letters() as u64;
        let any = 0..1 << 32;
        [
            Shape {
                kind: NOTHING,
                places: just(0),
                fitting: any.clone(),
                letters: just(0),
                is_full: false,
            },
            Shape {
                kind: INSERT,
                places: any.clone(),
                fitting: 0..letters + 1,
                letters: 1..u64::from(LAST_LETTER) + 1,
                is_full: letters >= RECORD as u64,
            },
            Shape {
                kind: DELETE,
                places: any,
                fitting: 0..letters,
                letters: just(0),
                is_full: false,
            },
        ]
    }
}

/// The first that holds, if one does.
fn first_of<const N: usize>(reasons: [(bool, Refusal); N]) -> Option<Refusal> {
    let mut reasons = reasons.into_iter();
    reasons.find_map(|(holds, refusal)| holds.then_some(refusal))
}

fn just(number: u32) -> Numbers {
    let number = number.into();
    number..number + 1
}

fn meet(one: &Numbers, other: &Numbers) -> bool {
    one.start.max(other.start) < one.end.min(other.end)
}

/// What the number there can be, of which all bytes are there, or the first ones, or none.
fn possible(bytes: &[u8], at: usize, width: usize) -> Numbers {
    let with = |missing: u8| {
        (at..at + width).fold(0, |number, at| {
            number << 8 | u64::from(*bytes.get(at).unwrap_or(&missing))
        })
    };
    with(0)..with(255) + 1
}

/// How long a record is that begins with this byte, if one does.
fn length(first: u8) -> Option<usize> {
    match first {
        ENTRY => Some(ENTRY_LENGTH),
        CONNECTION => Some(CONNECTION_LENGTH),
        _ => None,
    }
}

fn word(bytes: &[u8], at: usize) -> Option<u32> {
    let (&word, _) = bytes.get(at..)?.split_first_chunk()?;
    Some(u32::from_be_bytes(word))
}

/// Reads a record that is as long as its first byte says, if it is one.
fn read(bytes: &[u8]) -> Option<Record> {
    let number = word(bytes, NUMBER_AT)?;
    if bytes.len() == CONNECTION_LENGTH {
        return Some(Record::Connection(number));
    }
    let site = *bytes.get(SITE_AT)?;
    let operation = match (
        *bytes.get(KIND_AT)?,
        word(bytes, PLACE_AT)?,
        word(bytes, LETTER_AT)?,
    ) {
        (NOTHING, 0, 0) => Operation::Nothing { site },
        (INSERT, place, letter) => Operation::Insert {
            site,
            place,
            letter,
        },
        (DELETE, place, 0) => Operation::Delete { site, place },
        _ => return None,
    };
    Some(Record::Entry(Entry {
        place: number,
        operation,
    }))
}

/// The bytes of a record.
pub fn write(record: Record) -> Vec<u8> {
    let mut bytes = Vec::with_capacity(ENTRY_LENGTH);
    match record {
        Record::Entry(Entry { place, operation }) => {
            let (kind, at, letter) = match operation {
                Operation::Nothing { .. } => (NOTHING, 0, 0),
                Operation::Insert { place, letter, .. } => (INSERT, place, letter),
                Operation::Delete { place, .. } => (DELETE, place, 0),
            };
            bytes.push(ENTRY);
            bytes.extend_from_slice(&place.to_be_bytes());
            bytes.extend_from_slice(&[operation.site(), kind]);
            bytes.extend_from_slice(&at.to_be_bytes());
            bytes.extend_from_slice(&letter.to_be_bytes());
        }
        Record::Connection(connection) => {
            bytes.push(CONNECTION);
            bytes.extend_from_slice(&connection.to_be_bytes());
        }
    }
    bytes
}

/// A journal in a file, which has to be opened first.
pub struct Journal {
    file: File,
    contents: Option<Contents>,
}

impl Journal {
    /// The file is made if there is none, and nobody else may have it. Its folder is synced, so that it stays.
    pub fn in_file(path: &Path) -> io::Result<Journal> {
        let mut options = OpenOptions::new();
        let file = options.read(true).append(true).create(true).open(path)?;
        file.try_lock()?;
        if let Some(folder) = path.parent() {
            File::open(folder)?.sync_all()?;
        }
        Ok(Journal {
            file,
            contents: None,
        })
    }

    /// What it holds, if it is open.
    pub fn contents(&self) -> Option<&Contents> {
        self.contents.as_ref()
    }

    /// Reads the records from the start, cuts a first part of one off the end, and syncs. A file with anything else in it stays as it is.
    pub fn open(&mut self) -> Result<(), Error> {
        self.contents = None;
        self.file.seek(SeekFrom::Start(0))?;
        let mut contents = Contents::nothing();
        let mut part = vec![0; PART];
        // Of the part so many bytes are filled, and it begins at this byte of the file.
        let (mut filled, mut at) = (0, 0);
        loop {
            match self.file.read(&mut part[filled..]) {
                Ok(0) => break,
                Ok(count) => filled += count,
                Err(error) if error.kind() == ErrorKind::Interrupted => continue,
                Err(error) => return Err(error.into()),
            }
            let used = contents
                .replay(&part[..filled])
                .map_err(|(place, refusal)| Error::Damaged {
                    at: at + place as u64,
                    refusal,
                })?;
            part.copy_within(used..filled, 0);
            filled -= used;
            at += used as u64;
        }
        if filled > 0 {
            if let Some(refusal) = contents.end_refusal(&part[..filled]) {
                return Err(Error::Damaged { at, refusal });
            }
            self.file.set_len(at)?;
        }
        self.file.sync_data()?;
        self.contents = Some(contents);
        Ok(())
    }

    /// Puts a record behind the others, in one write.
    pub fn append(&mut self, record: Record) -> Result<(), Error> {
        let mut contents = self.contents.take().ok_or(Error::NotOpen)?;
        if let Some(refusal) = contents.refusal(record) {
            self.contents = Some(contents);
            return Err(Error::Refused(refusal));
        }
        self.file.write_all(&write(record))?;
        contents.take(record);
        self.contents = Some(contents);
        Ok(())
    }

    /// All that was put in stays through a crash.
    pub fn commit(&mut self) -> Result<(), Error> {
        let contents = self.contents.take().ok_or(Error::NotOpen)?;
        self.file.sync_data()?;
        self.contents = Some(contents);
        Ok(())
    }
}

#[cfg(test)]
mod tests {
    use super::*;
    use compare::random::Random;
    use std::fs;
    use std::path::PathBuf;
    use std::process;

    /// A file for one test, which goes with it.
    struct TestFile(PathBuf);

    impl TestFile {
        fn new(name: &str) -> TestFile {
            let name = format!("plain-journal-{}-{name}", process::id());
            TestFile(std::env::temp_dir().join(name))
        }

        fn bytes(&self) -> Vec<u8> {
            fs::read(&self.0).unwrap()
        }

        fn opened(&self, bytes: &[u8]) -> (Journal, Result<(), Error>) {
            fs::write(&self.0, bytes).unwrap();
            let mut journal = Journal::in_file(&self.0).unwrap();
            let result = journal.open();
            (journal, result)
        }
    }

    impl Drop for TestFile {
        fn drop(&mut self) {
            let _ = fs::remove_file(&self.0);
        }
    }

    fn insert(place: u32, site: u8, at: u32, letter: u32) -> Record {
        Record::Entry(Entry {
            place,
            operation: Operation::Insert {
                site,
                place: at,
                letter,
            },
        })
    }

    fn delete(place: u32, site: u8, at: u32) -> Record {
        Record::Entry(Entry {
            place,
            operation: Operation::Delete { site, place: at },
        })
    }

    fn nothing(place: u32, site: u8) -> Record {
        Record::Entry(Entry {
            place,
            operation: Operation::Nothing { site },
        })
    }

    /// Some records that can follow one another, and their bytes.
    const RECORDS: [(Record, &[u8]); 5] = [
        (Record::Connection(1), &[6, 0, 0, 0, 1]),
        (
            Record::Entry(Entry {
                place: 0,
                operation: Operation::Insert {
                    site: 3,
                    place: 0,
                    letter: 0x10_ffff,
                },
            }),
            &[2, 0, 0, 0, 0, 3, 1, 0, 0, 0, 0, 0, 0x10, 0xff, 0xff],
        ),
        (
            Record::Entry(Entry {
                place: 1,
                operation: Operation::Nothing { site: 15 },
            }),
            &[2, 0, 0, 0, 1, 15, 0, 0, 0, 0, 0, 0, 0, 0, 0],
        ),
        (
            Record::Connection(0xffff_fffe),
            &[6, 0xff, 0xff, 0xff, 0xfe],
        ),
        (
            Record::Entry(Entry {
                place: 2,
                operation: Operation::Delete { site: 0, place: 0 },
            }),
            &[2, 0, 0, 0, 2, 0, 2, 0, 0, 0, 0, 0, 0, 0, 0],
        ),
    ];

    /// The contents after records that can follow one another.
    fn contents(records: &[Record]) -> Contents {
        let mut contents = Contents::nothing();
        for &record in records {
            assert_eq!(contents.refusal(record), None);
            contents.take(record);
        }
        contents
    }

    /// The contents with so many letters.
    fn with_letters(count: u32) -> Contents {
        let mut contents = Contents::nothing();
        for place in 0..count {
            contents.take(insert(place, 0, place, 97));
        }
        contents
    }

    #[test]
    fn records_have_their_bytes() {
        for (record, bytes) in RECORDS {
            assert_eq!(write(record), bytes);
            assert_eq!(length(bytes[0]), Some(bytes.len()));
            assert_eq!(read(bytes), Some(record));
        }
    }

    #[test]
    fn a_journal_is_opened_as_it_was_left() {
        let file = TestFile::new("left");
        let (mut journal, result) = file.opened(&[]);
        assert!(result.is_ok());
        let mut bytes = Vec::new();
        for (record, spelled) in RECORDS {
            journal.append(record).unwrap();
            bytes.extend_from_slice(spelled);
        }
        journal.commit().unwrap();
        assert_eq!(file.bytes(), bytes);
        for _ in 0..2 {
            journal.open().unwrap();
            let contents = journal.contents().unwrap();
            assert_eq!((contents.letters(), contents.next()), (0, 3));
            assert_eq!(contents.connection, LAST_CONNECTION);
            let Operation::Insert { letter, .. } = contents.history[0] else {
                panic!("the first operation inserts");
            };
            assert_eq!(letter, 0x10_ffff);
        }
        assert_eq!(file.bytes(), bytes);
    }

    #[test]
    fn a_cut_journal_has_its_whole_records() {
        let file = TestFile::new("cut");
        let bytes: Vec<u8> = RECORDS
            .iter()
            .flat_map(|(_, bytes)| *bytes)
            .copied()
            .collect();
        for length in 0..=bytes.len() {
            let (mut journal, result) = file.opened(&bytes[..length]);
            assert!(result.is_ok());
            let mut whole = 0;
            let mut records = RECORDS.iter().take_while(|(_, spelled)| {
                whole += spelled.len();
                whole <= length
            });
            let kept: Vec<u8> = records
                .by_ref()
                .flat_map(|(_, bytes)| *bytes)
                .copied()
                .collect();
            assert_eq!(file.bytes(), kept);
            let next = journal.contents().unwrap().next();
            journal.append(nothing(next, 1)).unwrap();
            assert_eq!(file.bytes(), [kept, write(nothing(next, 1))].concat());
        }
    }

    #[test]
    fn what_is_not_open_takes_nothing() {
        let file = TestFile::new("open");
        fs::write(&file.0, [7]).unwrap();
        let mut journal = Journal::in_file(&file.0).unwrap();
        for _ in 0..2 {
            assert!(matches!(journal.append(RECORDS[0].0), Err(Error::NotOpen)));
            assert!(matches!(journal.commit(), Err(Error::NotOpen)));
            assert!(journal.contents().is_none());
            let result = journal.open();
            assert!(matches!(
                result,
                Err(Error::Damaged {
                    at: 0,
                    refusal: Refusal::Malformed
                })
            ));
        }
        assert_eq!(file.bytes(), [7]);
    }

    #[test]
    fn the_lowest_number_wins() {
        let some = contents(&[Record::Connection(7), insert(0, 0, 0, 97)]);
        let refusal = |record| some.refusal(record).map(|refusal| refusal as u8);
        assert_eq!(refusal(insert(1, 15, 1, 1)), None);
        assert_eq!(refusal(insert(9, 0, 9, 0)), Some(1));
        assert_eq!(refusal(insert(9, 0, 9, 1_114_112)), Some(1));
        assert_eq!(refusal(insert(9, 16, 9, 97)), Some(1));
        assert_eq!(refusal(nothing(9, 16)), Some(1));
        assert_eq!(refusal(delete(9, 16, 9)), Some(1));
        assert_eq!(refusal(Record::Connection(7)), Some(2));
        assert_eq!(refusal(Record::Connection(0)), Some(2));
        assert_eq!(refusal(insert(9, 0, 2, 97)), Some(3));
        assert_eq!(refusal(delete(9, 0, 1)), Some(3));
        assert_eq!(refusal(insert(0, 0, 0, 97)), Some(6));
        assert_eq!(refusal(nothing(2, 0)), Some(6));
        assert_eq!(refusal(Record::Connection(u32::MAX)), Some(7));
        let full = with_letters(65_536);
        let refusal = |record| full.refusal(record).map(|refusal| refusal as u8);
        assert_eq!(refusal(insert(65_536, 0, 65_536, 97)), Some(7));
        assert_eq!(refusal(insert(65_536, 0, 65_537, 97)), Some(3));
        assert_eq!(refusal(insert(65_535, 0, 65_536, 97)), Some(6));
        assert_eq!(refusal(delete(65_536, 0, 65_535)), None);
    }

    #[test]
    fn records_may_lie_across_the_parts_that_are_read() {
        let file = TestFile::new("parts");
        let entries = 20_000;
        let bytes: Vec<u8> = [Record::Connection(1)]
            .into_iter()
            .chain((0..entries).map(|place| insert(place, 1, 0, place % 1_000 + 1)))
            .flat_map(write)
            .collect();
        assert!(bytes.len() > 4 * PART);
        let (journal, result) = file.opened(&bytes[..bytes.len() - 1]);
        assert!(result.is_ok());
        assert_eq!(journal.contents().unwrap().next(), entries - 1);
        assert_eq!(file.bytes(), bytes[..bytes.len() - ENTRY_LENGTH]);
        drop(journal);
        let mut damaged = bytes.clone();
        let at = CONNECTION_LENGTH + 9_000 * ENTRY_LENGTH;
        damaged[at + SITE_AT] = 16;
        let (_, result) = file.opened(&damaged);
        let Err(Error::Damaged { at: place, .. }) = result else {
            panic!("the file is damaged");
        };
        assert_eq!(place, at as u64);
        assert_eq!(file.bytes(), damaged);
    }

    /// The number that a short end has by the definitions: that of the record which it is completed to.
    fn refusal_of_completed(contents: &Contents, end: &[u8]) -> Option<Refusal> {
        let rest = if end[0] == CONNECTION {
            let is_high = end[1..].iter().all(|&byte| byte == 255);
            vec![6, 255, 255, 255, if is_high { 254 } else { 255 }]
        } else {
            let [a, b, c, d] = contents.next().to_be_bytes();
            let letter = u8::from(end.get(6) == Some(&1));
            vec![2, a, b, c, d, 0, 0, 0, 0, 0, 0, 0, 0, 0, letter]
        };
        let whole = [end, &rest[end.len()..]].concat();
        match read(&whole) {
            None => Some(Refusal::Malformed),
            Some(record) => contents.refusal(record),
        }
    }

    fn some_contents() -> Vec<Contents> {
        let mut some = vec![
            contents(&[]),
            contents(&[Record::Connection(0x0102_0304), nothing(0, 3)]),
            contents(&[Record::Connection(0xffff_ff00), insert(0, 0, 0, 97)]),
            contents(&[Record::Connection(0xffff_fffd)]),
            contents(&[Record::Connection(LAST_CONNECTION)]),
        ];
        some.extend([255, 256, 300, 65_535, 65_536].map(with_letters));
        some.push(with_letters(65_536));
        some.last_mut().unwrap().take(delete(65_536, 0, 0));
        some
    }

    /// A record of such contents, or what is nearly one.
    fn some_record(random: &mut Random, contents: &Contents) -> Record {
        let around = |random: &mut Random, number: u32| {
            let near = number.wrapping_add(random.below(5) as u32).wrapping_sub(2);
            let high = number ^ 1 << random.below(32);
            let any = random.between(0, u32::MAX as usize) as u32;
            random.pick(&[number, number, number, number, near, high, any])
        };
        if random.one_in(4) {
            return Record::Connection(around(random, contents.connection));
        }
        let place = around(random, contents.next());
        let at = around(random, contents.letters() as u32);
        let site = random.pick(&[0, 1, 15, 16, 255]);
        let letter = random.pick(&[0, 1, 255, LAST_LETTER]);
        let letter = around(random, letter);
        match random.below(5) {
            0 => nothing(place, site),
            1 | 2 => delete(place, site, at),
            _ => insert(place, site, at, letter),
        }
    }

    #[test]
    fn ranges_tell_what_completing_tells() {
        let mut random = Random::new(1);
        let mut counts = [0; 8];
        for contents in some_contents() {
            for _ in 0..20_000 {
                let mut bytes = write(some_record(&mut random, &contents));
                if random.one_in(3) {
                    let at = random.between(1, bytes.len() - 1);
                    bytes[at] = random.pick(&[0, 1, 2, 3, 254, 255]);
                }
                let end = &bytes[..random.between(1, bytes.len() - 1)];
                let refusal = contents.end_refusal(end);
                assert_eq!(refusal, refusal_of_completed(&contents, end), "{end:?}");
                counts[refusal.map_or(0, |refusal| refusal as usize)] += 1;
                // So it is where all bytes of an entry are there.
                if bytes[0] == ENTRY {
                    let refusal = match read(&bytes) {
                        None => Some(Refusal::Malformed),
                        Some(record) => contents.refusal(record),
                    };
                    assert_eq!(contents.end_refusal(&bytes), refusal, "{bytes:?}");
                }
            }
        }
        for number in [0, 1, 2, 3, 6, 7] {
            assert!(counts[number] > 500, "{counts:?}");
        }
    }

    #[test]
    fn a_first_part_of_what_can_come_next_is_never_refused() {
        let mut random = Random::new(2);
        for contents in some_contents() {
            let mut count = 0;
            for _ in 0..5_000 {
                let record = some_record(&mut random, &contents);
                if contents.refusal(record).is_some() {
                    continue;
                }
                count += 1;
                let bytes = write(record);
                for length in 1..bytes.len() {
                    assert_eq!(contents.end_refusal(&bytes[..length]), None, "{record:?}");
                }
            }
            assert!(count > 50);
        }
    }
}
