//! Programs that play scripts.

use std::fmt;
use std::fs::File;
use std::io::{self, Read};
use std::path::{Path, PathBuf};
use std::process::{Child, Command, ExitStatus, Stdio};
use std::thread;
use std::time::{Duration, Instant};

/// No more than this is read of what a program prints. No script makes it print so much.
const MOST_BYTES: u64 = 1 << 28;

/// A program that reads a script from standard input.
#[derive(Clone, Debug)]
pub struct Program {
    pub path: PathBuf,
    pub arguments: &'static [&'static str],
}

/// What came of playing a script.
#[derive(Clone, Debug, PartialEq, Eq)]
pub struct Outcome {
    pub out: Vec<u8>,
    pub err: Vec<u8>,
    /// Nothing if it did not end in time.
    pub status: Option<ExitStatus>,
}

impl fmt::Display for Program {
    fn fmt(&self, f: &mut fmt::Formatter) -> fmt::Result {
        write!(f, "{}", self.path.display())
    }
}

impl Program {
    pub fn new(path: impl Into<PathBuf>, arguments: &'static [&'static str]) -> Program {
        Program {
            path: path.into(),
            arguments,
        }
    }

    /// Plays the script in this file. After this time it is stopped.
    pub fn play(&self, script: &Path, time: Duration) -> io::Result<Outcome> {
        let mut child = Command::new(&self.path)
            .args(self.arguments)
            .stdin(File::open(script)?)
            .stdout(Stdio::piped())
            .stderr(Stdio::piped())
            .spawn()?;
        let (out, err) = (child.stdout.take(), child.stderr.take());
        thread::scope(|scope| {
            let out = scope.spawn(|| read_all(out));
            let err = scope.spawn(|| read_all(err));
            let status = wait(&mut child, time)?;
            let bytes = |reader: thread::ScopedJoinHandle<_>| {
                reader.join().expect("a thread that reads does not panic")
            };
            Ok(Outcome {
                out: bytes(out)?,
                err: bytes(err)?,
                status,
            })
        })
    }
}

fn read_all(from: Option<impl Read>) -> io::Result<Vec<u8>> {
    let mut bytes = Vec::new();
    if let Some(from) = from {
        from.take(MOST_BYTES).read_to_end(&mut bytes)?;
    }
    Ok(bytes)
}

/// How the program ends. If it does not within this time it is killed.
fn wait(child: &mut Child, time: Duration) -> io::Result<Option<ExitStatus>> {
    let start = Instant::now();
    loop {
        if let Some(status) = child.try_wait()? {
            return Ok(Some(status));
        }
        let spent = start.elapsed();
        if spent >= time {
            child.kill()?;
            child.wait()?;
            return Ok(None);
        }
        // The longer it takes, the less often it is asked.
        thread::sleep((spent / 8).clamp(Duration::from_micros(200), Duration::from_millis(20)));
    }
}

#[cfg(test)]
mod tests {
    use super::*;

    #[test]
    fn gives_all_that_is_printed_and_the_status() {
        let script = Path::new("Cargo.toml");
        let shell = Program::new("sh", &["-c", "cat; echo no >&2; exit 3"]);
        let outcome = shell.play(script, Duration::from_secs(60)).unwrap();
        assert_eq!(outcome.out, std::fs::read(script).unwrap());
        assert_eq!(outcome.err, b"no\n");
        assert_eq!(outcome.status.unwrap().code(), Some(3));
    }

    #[test]
    fn stops_what_does_not_end() {
        let sleeper = Program::new("sleep", &["600"]);
        let outcome = sleeper
            .play(Path::new("Cargo.toml"), Duration::from_millis(50))
            .unwrap();
        assert_eq!(outcome.status, None);
    }

    #[test]
    fn says_if_there_is_no_program() {
        let missing = Program::new("no/such/program", &[]);
        assert!(missing
            .play(Path::new("Cargo.toml"), Duration::ZERO)
            .is_err());
    }
}
