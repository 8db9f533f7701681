//! Journals in files, by the program and by plain Rust: random calls, files that are cut at each byte, and files in which a byte is
//! another. Each answer and each file is held to what the records in the file are, too.

use std::fs::{self, OpenOptions};
use std::io;
use std::os::unix::fs::FileExt;

use compare::random::Random;

use crate::plain::journal::{write, Contents, Record, LAST_CONNECTION};
use crate::plain::operation::{Entry, Operation};
use crate::plain::text::RECORD;
use crate::replay::{filled, Command, Folder, Plain, Player, Program};

/// How many journals random calls are made of, and how many calls.
const RUNS: u64 = 80;
const LENGTH: usize = 80;

/// How many records a small journal has.
const SMALL: usize = 9;

/// How many small journals are cut at each byte, and in how many each byte is changed.
const CUT: u64 = 3;
const DAMAGED: u64 = 2;

/// Where so many values of a byte open, only one in 16 of the others is tried.
const MANY: usize = 20;

/// How many files end in random bytes that may be a first part of a record.
const ENDS: u64 = 1_000;

/// Answers, of which each has to come so often.
const ANSWERS: [&str; 16] = [
    "opened",
    "written",
    "committed",
    "filled",
    "not open",
    "refused 1",
    "refused 2",
    "refused 3",
    "refused 6",
    "refused 7",
    ": refused 1",
    ": refused 2",
    ": refused 3",
    ": refused 6",
    ": refused 7",
    " entries:",
];
const LEAST: usize = 5;

/// The records' first bytes and how long they are.
const WIDTHS: [(u8, usize); 2] = [(2, 15), (6, 5)];

/// What was compared.
#[derive(Default)]
pub struct Compared {
    /// Calls that were made of both.
    pub calls: usize,
    /// Files that were opened which were cut, in which a byte was another, and which had other bytes behind them.
    pub cut: usize,
    pub damaged: usize,
    pub ends: usize,
    answers: [usize; ANSWERS.len()],
}

/// Plays the random journals of a seed, and says how much was compared, or where the two differ.
pub fn check(seed: u64) -> Result<Compared, String> {
    let mut both = Both::start("check")?;
    both.begins_without_a_file()?;
    for number in 0..CUT {
        both.cut_at_each_byte(&mut Maker::new(&[seed, 0, number]))?;
    }
    for number in 0..DAMAGED {
        both.change_each_byte(&mut Maker::new(&[seed, 1, number]))?;
    }
    both.end_anyhow(&mut Maker::new(&[seed, 2]))?;
    for number in 0..RUNS {
        both.call(&mut Maker::new(&[seed, 3, number]))?;
    }
    both.cross_parts()?;
    both.fill_up()?;
    file_is_a_folder()?;
    file_is_kept()?;
    file_is_full()?;
    let compared = both.end()?;
    let mut counts = compared.answers.iter().zip(ANSWERS);
    match counts.find(|(count, _)| **count < LEAST) {
        Some((count, answer)) => Err(format!("journals: only {count} answers are `{answer}`")),
        None => Ok(compared),
    }
}

/// The program and plain Rust, and what the file of both has to hold.
struct Both {
    program: Program,
    plain: Plain,
    bytes: Vec<u8>,
    /// The last calls, to be told where the two differ.
    calls: Vec<Command>,
    compared: Compared,
}

impl Both {
    fn start(name: &str) -> Result<Both, String> {
        Ok(Both {
            program: Program::start(&Folder::new(&format!("{name}-proved"))?)?,
            plain: Plain::new(&Folder::new(&format!("{name}-plain"))?),
            bytes: Vec::new(),
            calls: Vec::new(),
            compared: Compared::default(),
        })
    }

    fn end(self) -> Result<Compared, String> {
        self.program.end()?;
        Ok(self.compared)
    }

    fn count(&mut self, answer: &str) {
        self.compared.calls += 1;
        for (count, kind) in self.compared.answers.iter_mut().zip(ANSWERS) {
            let is_so = if kind.starts_with(':') {
                answer.ends_with(kind)
            } else if kind.starts_with(' ') {
                answer.contains(kind)
            } else {
                answer.starts_with(kind)
            };
            *count += usize::from(is_so);
        }
    }

    fn contents(&self) -> Option<&Contents> {
        self.plain.contents().ok()
    }

    /// What is wrong, and what led there.
    fn wrong(&self, what: &str) -> String {
        let calls: Vec<String> = self.calls.iter().map(Command::to_string).collect();
        let end = &self.bytes[self.bytes.len().saturating_sub(400)..];
        format!(
            "journals: {what}; calls: {}; the file has {} bytes, the last: {end:?}",
            calls.join("; "),
            self.bytes.len()
        )
    }

    /// Both are asked, and answer alike; and their files have what they have to.
    fn ask(&mut self, command: Command) -> Result<String, String> {
        let one = self.program.ask(command)?;
        let other = self.plain.ask(command)?;
        if self.calls.len() == 20 {
            self.calls.remove(0);
        }
        self.calls.push(command);
        self.count(&one);
        if one != other {
            let (one, other) = (shortened(&one), shortened(&other));
            return Err(self.wrong(&format!("the answers are `{one}` and `{other}`")));
        }
        match command {
            Command::Append(record) if one == "written" => self.bytes.extend(write(record)),
            // What it appends depends on the text. It is held to the file of plain Rust, and what opens it tells the rest.
            Command::Fill { .. } if one != "not open" => self.bytes = self.plain.bytes()?,
            Command::Open if one.starts_with("opened") => {
                let whole = self.check_opened(&one)?;
                self.bytes.truncate(whole);
            }
            _ => {}
        }
        self.check_files()?;
        Ok(one)
    }

    /// Both answer so.
    fn expect(&mut self, command: Command, answer: &str) -> Result<(), String> {
        let got = self.ask(command)?;
        if got != answer {
            let got = shortened(&got);
            return Err(self.wrong(&format!("the answer is `{got}` and not `{answer}`")));
        }
        Ok(())
    }

    /// All whole records are opened, and what is behind them is less than one. Gives how long they are.
    fn check_opened(&self, answer: &str) -> Result<usize, String> {
        let mut rest = &self.bytes[..];
        let (mut entries, mut connection) = (0, 0);
        while let Some(first) = rest.first() {
            let Some((_, width)) = WIDTHS.iter().find(|(kind, _)| kind == first) else {
                return Err(self.wrong("a file with another first byte is opened"));
            };
            let Some((record, behind)) = rest.split_at_checked(*width) else {
                break;
            };
            if let [6, number @ ..] = record {
                connection = number
                    .iter()
                    .fold(0, |number, byte| number << 8 | u64::from(*byte));
            } else {
                entries += 1;
            }
            rest = behind;
        }
        let is_so = answer.starts_with(&format!("opened: {entries} entries, "))
            && answer.ends_with(&format!(" connection {connection}"));
        if !is_so {
            return Err(self.wrong(&format!(
                "{entries} entries and connection {connection} are opened as `{answer}`"
            )));
        }
        Ok(self.bytes.len() - rest.len())
    }

    fn check_files(&self) -> Result<(), String> {
        if self.program.bytes()? != self.bytes || self.plain.bytes()? != self.bytes {
            return Err(self.wrong("the files have other bytes than they have to"));
        }
        Ok(())
    }

    fn at_files(&self, work: impl Fn(&fs::File) -> io::Result<()>) -> Result<(), String> {
        for folder in [self.program.folder(), self.plain.folder()] {
            // The file stays the same one, since both may have it open.
            let file = OpenOptions::new().write(true).open(folder.file());
            file.and_then(|file| work(&file))
                .map_err(|error| error.to_string())?;
        }
        Ok(())
    }

    /// Both files hold these bytes from now on. A journal has to be opened after that.
    fn set(&mut self, bytes: &[u8]) -> Result<(), String> {
        self.bytes = bytes.to_vec();
        self.calls.clear();
        self.at_files(|file| {
            file.write_all_at(bytes, 0)?;
            file.set_len(bytes.len() as u64)
        })
    }

    fn set_byte(&mut self, at: usize, byte: u8) -> Result<(), String> {
        self.bytes[at] = byte;
        self.calls.clear();
        self.at_files(|file| file.write_all_at(&[byte], at as u64))
    }

    fn begins_without_a_file(&mut self) -> Result<(), String> {
        let first = Command::Append(Record::Connection(1));
        let fill = Command::Fill { count: 1, every: 1 };
        for command in [Command::Show, Command::Commit, first, fill] {
            answers(&mut self.program, command, "not open")?;
            answers(&mut self.plain, command, "not open")?;
        }
        self.expect(Command::Open, "opened: 0 entries, 0 letters, connection 0")?;
        self.expect(first, "written")
    }

    /// Opens what is there of a small journal when it was cut at each byte, and goes on writing.
    fn cut_at_each_byte(&mut self, maker: &mut Maker) -> Result<(), String> {
        let records = maker.some_records();
        let bytes: Vec<u8> = records.iter().copied().flat_map(write).collect();
        for length in 0..=bytes.len() {
            self.set(&bytes[..length])?;
            self.open_well()?;
            self.ask(Command::Show)?;
            self.write_on(maker)?;
            self.open_well()?;
            self.ask(Command::Show)?;
            self.compared.cut += 1;
        }
        Ok(())
    }

    fn open_well(&mut self) -> Result<(), String> {
        let answer = self.ask(Command::Open)?;
        if !answer.starts_with("opened") {
            return Err(self.wrong(&format!("the file is not opened: `{answer}`")));
        }
        Ok(())
    }

    /// An entry is written and committed.
    fn write_on(&mut self, maker: &mut Maker) -> Result<(), String> {
        let contents = self
            .contents()
            .ok_or("plain Rust has not opened the file")?;
        let entry = maker.next_entry(contents);
        self.expect(Command::Append(entry), "written")?;
        self.expect(Command::Commit, "committed")
    }

    /// Opens small journals in which a byte is another: each byte, and each value.
    fn change_each_byte(&mut self, maker: &mut Maker) -> Result<(), String> {
        let records = maker.some_records();
        let bytes: Vec<u8> = records.iter().copied().flat_map(write).collect();
        self.set(&bytes)?;
        let connection = Command::Append(Record::Connection(LAST_CONNECTION));
        for at in 0..bytes.len() {
            let mut opened = 0;
            for value in (0..=255).filter(|&value| value != bytes[at]) {
                // Syncing takes long, so where a byte can be nearly anything it is not all of that.
                if opened > MANY && value % 16 != 15 {
                    continue;
                }
                self.set_byte(at, value)?;
                let answer = self.ask(Command::Open)?;
                if answer.starts_with("opened") {
                    opened += 1;
                    self.ask(Command::Show)?;
                } else if self.compared.damaged % 16 == 0 {
                    self.expect(connection, "not open")?;
                }
                self.compared.damaged += 1;
                if self.bytes.len() < bytes.len() {
                    self.set(&bytes)?;
                }
            }
            self.set_byte(at, bytes[at])?;
        }
        self.open_well()
    }

    /// Opens small journals that end in less than a record, or in what is none.
    fn end_anyhow(&mut self, maker: &mut Maker) -> Result<(), String> {
        maker.wrong = 4;
        for number in 0..ENDS {
            if number % 30 == 0 {
                let mut records = maker.some_records();
                records.truncate(maker.random.below(SMALL));
                let bytes: Vec<u8> = records.iter().copied().flat_map(write).collect();
                self.set(&bytes)?;
                self.open_well()?;
            }
            let contents = self
                .contents()
                .ok_or("plain Rust has not opened the file")?;
            let end = maker.some_end(contents);
            let whole = self.bytes.clone();
            self.set(&[&whole[..], &end].concat())?;
            self.ask(Command::Open)?;
            self.compared.ends += 1;
            if self.bytes != whole {
                self.set(&whole)?;
                self.open_well()?;
            }
        }
        Ok(())
    }

    /// Random calls of a journal, which may crash, be damaged, and have other bytes at its end.
    fn call(&mut self, maker: &mut Maker) -> Result<(), String> {
        self.set(&[])?;
        self.open_well()?;
        for _ in 0..LENGTH {
            match maker.random.below(20) {
                0 => {
                    self.ask(Command::Open)?;
                }
                1 => {
                    self.ask(Command::Show)?;
                }
                2 => {
                    self.ask(Command::Commit)?;
                }
                3 => {
                    let count = maker.random.below(40) as u32;
                    let every = maker.random.pick(&[0, 3, 7, 16]);
                    self.ask(Command::Fill { count, every })?;
                }
                4 => {
                    let left = maker.some_length(self.bytes.len());
                    let left = self.bytes[..left].to_vec();
                    self.set(&left)?;
                    self.open_well()?;
                    self.compared.cut += 1;
                }
                5 => self.be_damaged(maker)?,
                _ => {
                    let nothing = Contents::nothing();
                    let contents = self.contents().unwrap_or(&nothing);
                    let record = maker.some_record(contents);
                    self.ask(Command::Append(record))?;
                }
            }
        }
        self.open_well()?;
        self.ask(Command::Show)?;
        Ok(())
    }

    /// A byte changes, or other bytes come behind; some calls follow, and then the damage is mended.
    fn be_damaged(&mut self, maker: &mut Maker) -> Result<(), String> {
        let good = self.bytes.clone();
        let mut bad = good.clone();
        if maker.random.one_in(2) || good.is_empty() {
            let nothing = Contents::nothing();
            bad.extend(maker.some_end(self.contents().unwrap_or(&nothing)));
        } else {
            let at = maker.some_length(good.len() - 1);
            bad[at] = maker.some_byte(good[at]);
        }
        self.set(&bad)?;
        let answer = self.ask(Command::Open)?;
        self.compared.damaged += 1;
        if answer.starts_with("opened") {
            return Ok(());
        }
        for command in [
            Command::Append(Record::Connection(LAST_CONNECTION)),
            Command::Fill { count: 2, every: 1 },
            Command::Commit,
            Command::Show,
        ] {
            self.expect(command, "not open")?;
        }
        self.set(&good)?;
        self.open_well()
    }

    /// Journals that are longer than what is read at a time: cut, and damaged, around where one part ends.
    fn cross_parts(&mut self) -> Result<(), String> {
        let bytes = [write(Record::Connection(1)), filled(9_000)].concat();
        for part in [65_536, 131_072] {
            for length in part - 20..=part + 20 {
                self.set(&bytes[..length])?;
                self.open_well()?;
                self.compared.cut += 1;
            }
            for at in part - 16..part + 16 {
                self.set(&bytes)?;
                self.set_byte(at, 255)?;
                self.ask(Command::Open)?;
                self.compared.damaged += 1;
            }
        }
        Ok(())
    }

    /// A journal whose text has as many letters as it can.
    fn fill_up(&mut self) -> Result<(), String> {
        let full = RECORD as u32;
        let insert = |place: u32, at: u32| {
            Record::Entry(Entry {
                place,
                operation: Operation::Insert {
                    site: 0,
                    place: at,
                    letter: 97,
                },
            })
        };
        let bytes: Vec<u8> = (0..full)
            .flat_map(|place| write(insert(place, place)))
            .collect();
        self.set(&bytes)?;
        let opened = format!("opened: {full} entries, {full} letters, connection 0");
        self.expect(Command::Open, &opened)?;
        self.expect(Command::Append(insert(full, full)), "refused 7")?;
        self.expect(Command::Append(insert(full, full + 1)), "refused 3")?;
        self.expect(Command::Append(insert(0, full)), "refused 6")?;
        // No first part of an insertion can stand at the end, from where its kind is told.
        let more = write(insert(full, full));
        for length in 1..=more.len() {
            self.set(&[&bytes, &more[..length]].concat())?;
            if length < 7 {
                self.expect(Command::Open, &opened)?;
            } else {
                let answer = format!("damaged at {}: refused 7", bytes.len());
                self.expect(Command::Open, &answer)?;
            }
        }
        self.set(&bytes)?;
        self.expect(Command::Open, &opened)?;
        let delete = Record::Entry(Entry {
            place: full,
            operation: Operation::Delete { site: 15, place: 7 },
        });
        self.expect(Command::Append(delete), "written")?;
        self.expect(Command::Append(insert(full + 1, full)), "refused 3")?;
        self.expect(Command::Append(insert(full + 1, 7)), "written")?;
        self.expect(Command::Append(insert(full + 2, 7)), "refused 7")?;
        self.ask(Command::Show)?;
        self.open_well()?;
        self.ask(Command::Show)?;
        Ok(())
    }
}

/// A folder is no file.
fn file_is_a_folder() -> Result<(), String> {
    let mut both = Both::start("folder")?;
    for folder in [both.program.folder(), both.plain.folder()] {
        fs::create_dir(folder.file()).map_err(|error| error.to_string())?;
    }
    for (command, answer) in [
        (Command::Open, "failed"),
        (Command::Commit, "not open"),
        (Command::Open, "failed"),
    ] {
        answers(&mut both.program, command, answer)?;
        answers(&mut both.plain, command, answer)?;
    }
    both.program.end()
}

/// Only one at a time has the file, whichever of the two it is.
fn file_is_kept() -> Result<(), String> {
    let folder = Folder::new("kept")?;
    let mut program = Program::start(&folder)?;
    let mut plain = Plain::new(&folder);
    let opened = "opened: 0 entries, 0 letters, connection 0";
    answers(&mut program, Command::Open, opened)?;
    answers(&mut plain, Command::Open, "failed")?;
    let mut other = Program::start(&folder)?;
    answers(&mut other, Command::Open, "failed")?;
    program.end()?;
    answers(&mut plain, Command::Open, opened)?;
    answers(&mut other, Command::Open, "failed")?;
    other.end()
}

/// A file that cannot get longer: the journal is closed, and has what it had and a first part of the record.
fn file_is_full() -> Result<(), String> {
    let all = filled(1_000);
    for blocks in 1..=8 {
        let folder = Folder::new("full")?;
        let mut program = Program::start_with_blocks(blocks, &folder)?;
        let nothing = "opened: 0 entries, 0 letters, connection 0";
        answers(&mut program, Command::Open, nothing)?;
        let fill = Command::Fill {
            count: 1_000,
            every: 16,
        };
        answers(&mut program, fill, "failed")?;
        let left = program.bytes()?;
        if !all.starts_with(&left) || left.len() != blocks as usize * 512 {
            return Err(format!("a file of {blocks} blocks has other bytes"));
        }
        for command in [
            Command::Append(Record::Connection(1)),
            Command::Commit,
            fill,
            Command::Show,
        ] {
            answers(&mut program, command, "not open")?;
        }
        if program.bytes()? != left {
            return Err("a journal that is not open is written to".to_owned());
        }
        let entries = left.len() / 15;
        let opened = format!("opened: {entries} entries, {entries} letters, connection 0");
        answers(&mut program, Command::Open, &opened)?;
        if program.bytes()? != all[..entries * 15] {
            return Err("what was written in part is not cut off".to_owned());
        }
        program.end()?;
    }
    Ok(())
}

fn answers(player: &mut impl Player, command: Command, answer: &str) -> Result<(), String> {
    let got = player.ask(command)?;
    if got == answer {
        Ok(())
    } else {
        let got = shortened(&got);
        Err(format!(
            "journals: `{command}` is answered `{got}` and not `{answer}`"
        ))
    }
}

fn shortened(answer: &str) -> &str {
    answer.get(..300).unwrap_or(answer)
}

struct Maker {
    random: Random,
    /// Once in so many times something is wrong.
    wrong: usize,
}

impl Maker {
    fn new(numbers: &[u64]) -> Maker {
        let mut random = Random::of(numbers);
        let wrong = random.pick(&[4, 20, 100]);
        Maker { random, wrong }
    }

    fn is_wrong(&mut self) -> bool {
        self.random.one_in(self.wrong)
    }

    /// Records that can follow one another: as many as a small journal has.
    fn some_records(&mut self) -> Vec<Record> {
        let mut contents = Contents::nothing();
        let mut records = Vec::new();
        while records.len() < SMALL {
            let record = self.some_record(&contents);
            if contents.refusal(record).is_none() {
                contents.take(record);
                records.push(record);
            }
        }
        records
    }

    /// An entry that can come next.
    fn next_entry(&mut self, contents: &Contents) -> Record {
        loop {
            let entry = self.some_entry(contents);
            if contents.refusal(entry).is_none() {
                return entry;
            }
        }
    }

    /// A record that can come next, or where something is wrong.
    fn some_record(&mut self, contents: &Contents) -> Record {
        if !self.random.one_in(5) {
            return self.some_entry(contents);
        }
        let last = contents.connection;
        let step = self.random.pick(&[1, 1, 2, 255, 256, 65_536, 1 << 24]);
        Record::Connection(if self.is_wrong() {
            self.random
                .pick(&[0, last, last.saturating_sub(1), LAST_CONNECTION, u32::MAX])
        } else {
            last.saturating_add(step)
        })
    }

    fn some_entry(&mut self, contents: &Contents) -> Record {
        let (next, letters) = (contents.next(), contents.letters() as u32);
        let number = self.unless_wrong(next, &[0, next.saturating_sub(1), next + 1, u32::MAX]);
        let site = self.random.below(16) as u32;
        let site = self.unless_wrong(site, &[16, 17, 255]) as u8;
        let kind = self.random.below(6);
        let operation = if kind == 0 {
            Operation::Nothing { site }
        } else if kind < 3 && (letters > 0 || self.is_wrong()) {
            let place = self.random.below(letters.max(1) as usize) as u32;
            let place = self.unless_wrong(place, &[letters, letters + 1, 1 << 24, u32::MAX]);
            Operation::Delete { site, place }
        } else {
            let place = self.random.below(letters as usize + 1) as u32;
            let any = self.random.between(1, 1_114_111) as u32;
            let letter = self.random.pick(&[97, 255, 256, any, any, 1_114_111]);
            Operation::Insert {
                site,
                place: self.unless_wrong(place, &[letters + 1, 1 << 24, u32::MAX]),
                letter: self.unless_wrong(letter, &[0, 1_114_112, 1 << 24, u32::MAX]),
            }
        };
        Record::Entry(Entry {
            place: number,
            operation,
        })
    }

    fn unless_wrong(&mut self, number: u32, others: &[u32]) -> u32 {
        if self.is_wrong() {
            self.random.pick(others)
        } else {
            number
        }
    }

    /// Another byte than this one, and most often one that says something.
    fn some_byte(&mut self, byte: u8) -> u8 {
        let any = self.random.below(256) as u8;
        self.random
            .pick(&[0, 1, 2, 3, 6, 15, 16, 255, byte ^ 1, byte ^ 128, any, any])
    }

    /// What may be a first part of a record, with a byte that is another now and then.
    fn some_end(&mut self, contents: &Contents) -> Vec<u8> {
        let mut end = write(self.some_record(contents));
        if self.random.one_in(2) {
            let at = self.random.below(end.len());
            end[at] = self.some_byte(end[at]);
        }
        let left = self.random.between(1, end.len());
        end.truncate(left);
        end
    }

    /// A length up to this one, and most often near it.
    fn some_length(&mut self, most: usize) -> usize {
        let near = most - self.random.below(most.min(40) + 1);
        let any = self.random.below(most + 1);
        self.random.pick(&[near, near, any])
    }
}

#[cfg(test)]
mod tests {
    use super::*;

    #[test]
    fn a_difference_is_seen() {
        let mut both = Both::start("seen").unwrap();
        let bytes = filled(20);
        both.begins_without_a_file().unwrap();
        both.set(&bytes).unwrap();
        both.open_well().unwrap();
        // Another letter, which no answer but the text shows.
        let file = OpenOptions::new()
            .write(true)
            .open(both.plain.folder().file());
        file.unwrap().write_all_at(&[98], 14).unwrap();
        assert!(both
            .ask(Command::Open)
            .unwrap_err()
            .contains("the files have other bytes"));
        assert!(both
            .ask(Command::Show)
            .unwrap_err()
            .contains("the answers are"));
        both.set(&bytes).unwrap();
        both.open_well().unwrap();
        // What a file has to have is known from the records alone.
        both.bytes.pop();
        assert!(both.ask(Command::Show).is_err());
    }

    #[test]
    fn what_is_opened_is_held_to_the_records() {
        let mut both = Both::start("records").unwrap();
        both.bytes = filled(3);
        let length = both.bytes.len();
        both.bytes.extend([6, 0, 0, 0, 9, 2, 0, 0]);
        let opened = "opened: 3 entries, 3 letters, connection 9";
        assert_eq!(both.check_opened(opened), Ok(length + 5));
        for other in [
            "opened: 2 entries, 2 letters, connection 9",
            "opened: 3 entries, 3 letters, connection 0",
        ] {
            assert!(both.check_opened(other).is_err());
        }
        both.bytes.push(7);
        assert_eq!(both.check_opened(opened), Ok(length + 5));
        both.bytes[length] = 7;
        assert!(both.check_opened(opened).is_err());
    }
}
