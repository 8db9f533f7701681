//! Playing many scripts.

use std::collections::BTreeMap;
use std::fmt;
use std::fs;
use std::io;
use std::path::{Path, PathBuf};
use std::process::{self, Command};
use std::sync::{Mutex, MutexGuard, PoisonError};
use std::thread;
use std::time::{Duration, Instant};

use crate::judge::{Judge, Verdict};
use crate::kind::Name;
use crate::program::Program;
use crate::report::report;

/// So many scripts are played at once.
const THREADS: usize = 2;

/// After this time it is said how far it has come.
const SILENCE: Duration = Duration::from_secs(20);

/// A script that is to be played.
pub enum Source {
    Random(Name),
    /// What tools/limits prints for this limit, and then a show.
    Limit(&'static str),
    File(PathBuf),
}

impl Source {
    fn script(&self) -> io::Result<Vec<u8>> {
        match self {
            Source::Random(name) => Ok(name.script()),
            Source::Limit(limit) => {
                let output = Command::new("tools/limits").arg(limit).output()?;
                if !output.status.success() {
                    return Err(io::Error::other("tools/limits fails"));
                }
                Ok([&output.stdout[..], b"show\n"].concat())
            }
            Source::File(file) => fs::read(file),
        }
    }

    /// A name for a file, if the script fails.
    fn name(&self) -> String {
        match self {
            Source::Random(name) => name.to_string(),
            Source::Limit(limit) => format!("limit-{limit}"),
            Source::File(_) => "given".to_string(),
        }
    }

    fn kind(&self) -> &'static str {
        match self {
            Source::Random(name) => name.kind.name(),
            Source::Limit(_) => "of tools/limits",
            Source::File(_) => "given",
        }
    }
}

/// How much was played.
#[derive(Default)]
struct Tally {
    scripts: BTreeMap<&'static str, usize>,
    commands: usize,
    shows: usize,
}

impl Tally {
    fn add(&mut self, source: &Source, verdict: &Verdict) {
        *self.scripts.entry(source.kind()).or_default() += 1;
        self.commands += verdict.commands();
        self.shows += verdict.shows;
    }
}

impl fmt::Display for Tally {
    fn fmt(&self, f: &mut fmt::Formatter) -> fmt::Result {
        let scripts: usize = self.scripts.values().sum();
        write!(f, "{scripts} scripts of {} commands (", self.commands)?;
        for (number, (kind, count)) in self.scripts.iter().enumerate() {
            let comma = if number > 0 { ", " } else { "" };
            write!(f, "{comma}{count} {kind}")?;
        }
        write!(f, "), {} shows held to the properties", self.shows)
    }
}

/// The scripts that are left, and what came of the others.
struct State<S> {
    sources: S,
    tally: Tally,
    /// Whether one has failed, or could not be played.
    has_failed: bool,
    /// When it was last said how far it has come.
    told: Instant,
}

/// Plays these scripts, several at once, up to the first that fails, and tells what came of it.
/// Whether none fails.
pub fn play_all(
    sources: impl Iterator<Item = Source> + Send,
    programs: &[Program; 2],
    folder: &Path,
    note: &str,
) -> io::Result<bool> {
    let state = Mutex::new(State {
        sources,
        tally: Tally::default(),
        has_failed: false,
        told: Instant::now(),
    });
    let work = |number| {
        let judge = Judge {
            programs: programs.clone(),
            file: folder.join(format!("playing-{}-{number}.script", process::id())),
        };
        let result = work(&state, &judge, folder);
        if result.is_err() {
            lock(&state).has_failed = true;
        }
        // There is none if nothing was played.
        fs::remove_file(&judge.file).ok();
        result
    };
    thread::scope(|scope| {
        let start = |number| scope.spawn(move || work(number));
        let workers: Vec<_> = (0..THREADS).map(start).collect();
        let mut results = workers.into_iter().map(|worker| worker.join());
        results.try_for_each(|result| result.expect("a thread that plays does not panic"))
    })?;
    let state = lock(&state);
    if !state.has_failed {
        println!("compare: {}, all alike{note}", state.tally);
    }
    Ok(!state.has_failed)
}

/// Plays scripts as long as there are some and none has failed.
fn work(
    state: &Mutex<State<impl Iterator<Item = Source>>>,
    judge: &Judge,
    folder: &Path,
) -> io::Result<()> {
    // The lock is held only while the next one is fetched.
    let next = || lock(state).next();
    while let Some(source) = next() {
        let verdict = judge.judge(source.script()?)?;
        let mut state = lock(state);
        if verdict.failures.is_empty() {
            state.add(&source, &verdict);
        } else if !state.has_failed {
            state.has_failed = true;
            drop(state);
            report(
                judge,
                folder,
                &source.name(),
                &verdict,
                &mut io::stderr().lock(),
            )?;
        }
    }
    Ok(())
}

impl<S: Iterator<Item = Source>> State<S> {
    fn next(&mut self) -> Option<Source> {
        (!self.has_failed).then(|| self.sources.next())?
    }

    fn add(&mut self, source: &Source, verdict: &Verdict) {
        self.tally.add(source, verdict);
        if self.told.elapsed() > SILENCE {
            self.told = Instant::now();
            println!("compare: up to {}: {}", source.name(), self.tally);
        }
    }
}

/// What the mutex holds. A thread that panics ends the program anyway.
fn lock<T>(mutex: &Mutex<T>) -> MutexGuard<'_, T> {
    mutex.lock().unwrap_or_else(PoisonError::into_inner)
}
