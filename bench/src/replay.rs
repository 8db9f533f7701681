//! Commands on a journal, and who plays them: the program `replay`, asked line by line, and plain Rust. Each has its journal in a folder of
//! its own.

use std::fmt;
use std::fs;
use std::io::{self, BufRead, BufReader, Write};
use std::os::fd::OwnedFd;
use std::os::unix::net::UnixStream;
use std::path::{Path, PathBuf};
use std::process::{self, Child, ChildStdin, Stdio};
use std::rc::Rc;
use std::time::Duration;

use crate::plain::journal::{write, Contents, Error, Journal, Record};
use crate::plain::operation::{Entry, Operation};

const PROGRAM: &str = concat!(env!("CARGO_MANIFEST_DIR"), "/../crates/replay/out/replay");

/// Where the folders are.
const TARGET: &str = concat!(env!("CARGO_MANIFEST_DIR"), "/../target");

/// The journal's file in its folder.
const FILE: &str = "record";

/// How long the program may take for an answer.
const MOST_TIME: Duration = Duration::from_secs(60);

#[derive(Clone, Copy, Debug, PartialEq, Eq)]
pub enum Command {
    Open,
    Show,
    Append(Record),
    Commit,
    /// So many entries are appended, with a commit behind each that many.
    Fill {
        count: u32,
        every: u32,
    },
}

impl fmt::Display for Command {
    fn fmt(&self, f: &mut fmt::Formatter) -> fmt::Result {
        match *self {
            Command::Open => write!(f, "open"),
            Command::Show => write!(f, "show"),
            Command::Commit => write!(f, "commit"),
            Command::Fill { count, every } => write!(f, "fill {count} {every}"),
            Command::Append(Record::Connection(connection)) => write!(f, "connection {connection}"),
            Command::Append(Record::Entry(Entry { place, operation })) => {
                write!(f, "entry {place} {} ", operation.site())?;
                match operation {
                    Operation::Nothing { .. } => write!(f, "nothing"),
                    Operation::Insert { place, letter, .. } => write!(f, "insert {place} {letter}"),
                    Operation::Delete { place, .. } => write!(f, "delete {place}"),
                }
            }
        }
    }
}

/// A folder that goes with the last who has it.
pub struct Folder(PathBuf);

impl Folder {
    /// A fresh one, for this process.
    pub fn new(name: &str) -> Result<Rc<Folder>, String> {
        let path = Path::new(TARGET).join(format!("journal-{}-{name}", process::id()));
        let _ = fs::remove_dir_all(&path);
        fs::create_dir_all(&path).map_err(|error| format!("{}: {error}", path.display()))?;
        Ok(Rc::new(Folder(path)))
    }

    /// The journal's file.
    pub fn file(&self) -> PathBuf {
        self.0.join(FILE)
    }
}

impl Drop for Folder {
    fn drop(&mut self) {
        let _ = fs::remove_dir_all(&self.0);
    }
}

pub trait Player {
    /// The answer to a command.
    fn ask(&mut self, command: Command) -> Result<String, String>;

    fn folder(&self) -> &Rc<Folder>;

    /// What its file has.
    fn bytes(&self) -> Result<Vec<u8>, String> {
        let file = self.folder().file();
        fs::read(&file).map_err(|error| format!("{}: {error}", file.display()))
    }
}

/// The program, while it runs.
pub struct Program {
    child: Child,
    /// Nothing once no more is asked.
    input: Option<ChildStdin>,
    answers: BufReader<UnixStream>,
    folder: Rc<Folder>,
}

impl Program {
    pub fn start(folder: &Rc<Folder>) -> Result<Program, String> {
        spawned(Program::spawn(process::Command::new(PROGRAM), folder))
    }

    /// One whose files cannot get longer than so many blocks of 512 bytes: writing more fails.
    pub fn start_with_blocks(blocks: u32, folder: &Rc<Folder>) -> Result<Program, String> {
        let mut shell = process::Command::new("sh");
        let script = format!("trap '' XFSZ && ulimit -f {blocks} && exec \"$0\"");
        shell.args(["-c", &script, PROGRAM]);
        spawned(Program::spawn(shell, folder))
    }

    fn spawn(mut command: process::Command, folder: &Rc<Folder>) -> io::Result<Program> {
        // A socket, since a pipe has no time limit.
        let (answers, output) = UnixStream::pair()?;
        answers.set_read_timeout(Some(MOST_TIME))?;
        let mut child = command
            .current_dir(&folder.0)
            .stdin(Stdio::piped())
            .stdout(OwnedFd::from(output))
            .spawn()?;
        Ok(Program {
            input: child.stdin.take(),
            child,
            answers: BufReader::new(answers),
            folder: Rc::clone(folder),
        })
    }

    /// Whether it ends well when no more is asked.
    pub fn end(mut self) -> Result<(), String> {
        self.input = None;
        match self.child.wait() {
            Ok(status) if status.success() => Ok(()),
            Ok(status) => Err(format!("replay ends with {status}")),
            Err(error) => Err(format!("replay: {error}")),
        }
    }
}

fn spawned(program: io::Result<Program>) -> Result<Program, String> {
    program.map_err(|error| format!("{PROGRAM}: {error}"))
}

impl Player for Program {
    fn ask(&mut self, command: Command) -> Result<String, String> {
        let input = self.input.as_mut().ok_or("replay has ended")?;
        // In one write, so that it is read at once.
        let line = format!("{command}\n");
        let mut answer = String::new();
        let mut ask = || {
            input.write_all(line.as_bytes())?;
            self.answers.read_line(&mut answer)
        };
        ask().map_err(|error| format!("replay does not answer `{command}`: {error}"))?;
        match answer.strip_suffix('\n') {
            Some(answer) => Ok(answer.to_owned()),
            None => Err(format!("replay ends at `{command}`")),
        }
    }

    fn folder(&self) -> &Rc<Folder> {
        &self.folder
    }
}

impl Drop for Program {
    fn drop(&mut self) {
        let _ = self.child.kill();
        let _ = self.child.wait();
    }
}

/// The same in plain Rust.
pub struct Plain {
    journal: Option<Journal>,
    folder: Rc<Folder>,
}

impl Plain {
    pub fn new(folder: &Rc<Folder>) -> Plain {
        Plain {
            journal: None,
            folder: Rc::clone(folder),
        }
    }

    fn open(&mut self) -> Result<String, Error> {
        if self.journal.is_none() {
            self.journal = Some(Journal::in_file(&self.folder.file())?);
        }
        self.journal().and_then(Journal::open)?;
        let contents = self.contents()?;
        Ok(format!(
            "opened: {} entries, {} letters, connection {}",
            contents.next(),
            contents.letters(),
            contents.connection
        ))
    }

    fn journal(&mut self) -> Result<&mut Journal, Error> {
        self.journal.as_mut().ok_or(Error::NotOpen)
    }

    /// What its journal holds, if that is open.
    pub fn contents(&self) -> Result<&Contents, Error> {
        let journal = self.journal.as_ref();
        journal.and_then(Journal::contents).ok_or(Error::NotOpen)
    }

    fn show(&self) -> Result<String, Error> {
        let contents = self.contents()?;
        let (letters, sites) = (contents.text.letters(), contents.text.sites());
        let letters = letters.iter().zip(sites);
        let letters = letters.map(|(letter, site)| format!(" {letter}/{site}"));
        Ok(format!("{} entries:", contents.next()) + &letters.collect::<String>())
    }

    fn fill(&mut self, count: u32, every: u32) -> Result<(), Error> {
        for number in 1..=count {
            let contents = self.contents()?;
            let record = filler(contents.next(), contents.letters() as u32);
            self.journal()?.append(record)?;
            if every > 0 && number % every == 0 {
                self.journal()?.commit()?;
            }
        }
        self.contents()?;
        Ok(())
    }
}

impl Player for Plain {
    fn ask(&mut self, command: Command) -> Result<String, String> {
        let result = match command {
            Command::Open => self.open(),
            Command::Show => self.show(),
            Command::Append(record) => self
                .journal()
                .and_then(|journal| journal.append(record))
                .map(|()| "written".to_owned()),
            Command::Commit => self
                .journal()
                .and_then(Journal::commit)
                .map(|()| "committed".to_owned()),
            Command::Fill { count, every } => self.fill(count, every).map(|()| "filled".to_owned()),
        };
        Ok(result.unwrap_or_else(|error| match error {
            Error::NotOpen => "not open".to_owned(),
            Error::Refused(refusal) => format!("refused {}", refusal as u8),
            Error::Damaged { at, refusal } => format!("damaged at {at}: refused {}", refusal as u8),
            Error::File => "failed".to_owned(),
        }))
    }

    fn folder(&self) -> &Rc<Folder> {
        &self.folder
    }
}

/// The entry with which a journal is filled at that place, where the text has so many letters.
pub fn filler(place: u32, letters: u32) -> Record {
    let site = (place % 16) as u8;
    let spread = u64::from(place) * 7_919;
    let operation = if letters < 1_000 {
        Operation::Insert {
            site,
            place: (spread % (u64::from(letters) + 1)) as u32,
            letter: 97 + place % 26,
        }
    } else {
        Operation::Delete {
            site,
            place: (spread % u64::from(letters)) as u32,
        }
    };
    Record::Entry(Entry { place, operation })
}

/// The bytes of a journal that was filled with so many entries.
pub fn filled(count: u32) -> Vec<u8> {
    // Of the letters above the most there is one in turn.
    let letters = |place: u32| place.min(1_000) - place.saturating_sub(1_000) % 2;
    let entries = (0..count).map(|place| filler(place, letters(place)));
    entries.flat_map(write).collect()
}

#[cfg(test)]
mod tests {
    use super::*;

    /// Lines that are no commands, but for the last of each list.
    const LINES: [&[&str]; 6] = [
        &[
            "",
            " ",
            "Open",
            "opened",
            "open open",
            " open",
            "open ",
            "open\t",
            "open\r",
            "op\0en",
            "\u{e9}",
            "open",
        ],
        &[
            "connection",
            "connection ",
            "connection x",
            "connection -1",
            "connection +1",
            "connection 1 2",
            "connection 4294967296",
            "connection 99999999999999999999",
            "connection  1",
            "connection 0000000000000000000000007",
        ],
        &[
            "entry",
            "entry 0",
            "entry 0 0",
            "entry 0 0 none",
            "entry 0 256 nothing",
            "entry 4294967296 0 nothing",
            "entry 0 0 nothing 0",
            "entry 0 015 nothing",
        ],
        &[
            "entry 1 0 insert",
            "entry 1 0 insert 0",
            "entry 1 0 insert 0 97 1",
            "entry 1 0 insert 0 a",
            "entry 1 0 Insert 0 97",
            "entry 1 0 insert 0 97",
        ],
        &[
            "entry 2 0 delete",
            "entry 2 0 delete 0 0",
            "entry 2 0 delete 0 ",
            "entry 2 0 delete 4294967296",
            "entry 2 0 delete 0",
        ],
        &[
            "fill",
            "fill 1",
            "fill 1 2 3",
            "fill 1 x",
            "show 1",
            "commit 1",
            "# comment",
            "show",
        ],
    ];

    #[test]
    fn a_line_that_is_no_command_is_told() {
        let folder = Folder::new("lines").unwrap();
        let lines: Vec<&str> = LINES.concat();
        let mut child = process::Command::new(PROGRAM)
            .current_dir(&folder.0)
            .stdin(Stdio::piped())
            .stdout(Stdio::piped())
            .stderr(Stdio::piped())
            .spawn()
            .unwrap();
        // The last line has no end.
        let script = lines.join("\n");
        child
            .stdin
            .take()
            .unwrap()
            .write_all(script.as_bytes())
            .unwrap();
        let output = child.wait_with_output().unwrap();
        let opened = "opened: 0 entries, 0 letters, connection 0\n";
        let out = format!("{opened}written\nwritten\nwritten\nwritten\n3 entries:\n");
        assert_eq!(String::from_utf8(output.stdout).unwrap(), out);
        let lasts = LINES.map(|lines| *lines.last().unwrap());
        let bad = lines
            .iter()
            .zip(1..)
            .filter(|(line, _)| !lasts.contains(line));
        let err: String = bad
            .map(|(_, number)| format!("line {number}: not a command\n"))
            .collect();
        assert_eq!(String::from_utf8(output.stderr).unwrap(), err);
        assert_eq!(output.status.code(), Some(1));
    }

    #[test]
    fn a_journal_is_filled_with_as_many_letters() {
        let folder = Folder::new("letters").unwrap();
        fs::write(folder.file(), filled(3_001)).unwrap();
        let mut plain = Plain::new(&folder);
        let opened = plain.ask(Command::Open).unwrap();
        assert_eq!(opened, "opened: 3001 entries, 999 letters, connection 0");
        let (count, every) = (7, 2);
        assert_eq!(plain.ask(Command::Fill { count, every }).unwrap(), "filled");
        assert_eq!(plain.bytes().unwrap(), filled(3_008));
    }
}
