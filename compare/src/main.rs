//! Compares two programs that play scripts, by random scripts. tools/compare builds and runs it.

use std::env;
use std::ffi::OsString;
use std::fs;
use std::hash::{BuildHasher, RandomState};
use std::io;
use std::ops::RangeInclusive;
use std::path::{self, Path, PathBuf};
use std::process::ExitCode;
use std::time::{Duration, Instant};

use compare::kind::all_of;
use compare::program::Program;
use compare::run::{play_all, Source};

const USAGE: &str = "\
usage: tools/compare [--programs ONE OTHER] [--minutes NUMBER | --seed SEED | --script FILE]";

/// The repository. What is named in it here is named from there.
const ROOT: &str = concat!(env!("CARGO_MANIFEST_DIR"), "/..");

/// The programs that are compared if no others are named.
const REHEARSE: (&str, &[&str]) = ("crates/rehearse/out/rehearse", &[]);
const REFERENCE: (&str, &[&str]) = ("target/reference/release/reference", &[]);

/// Where the scripts are kept that are played or that fail.
const FOLDER: &str = "target/compare";

/// If nothing else is asked for, these seeds are played and a fresh one.
const FIXED_SEEDS: RangeInclusive<u64> = 1..=20;

/// What is to be done.
enum Task {
    Gate,
    Minutes(u64),
    Seed(u64),
    Script(PathBuf),
}

fn main() -> ExitCode {
    let Some((task, programs)) = read_arguments(env::args_os().skip(1)) else {
        eprintln!("{USAGE}");
        return ExitCode::from(2);
    };
    match compare(task, &programs) {
        Ok(true) => ExitCode::SUCCESS,
        Ok(false) => ExitCode::FAILURE,
        Err(error) => {
            eprintln!("compare: {error}");
            ExitCode::FAILURE
        }
    }
}

fn read_arguments(mut words: impl Iterator<Item = OsString>) -> Option<(Task, [Program; 2])> {
    let mut task = None;
    let mut programs = None;
    while let Some(word) = words.next() {
        if word == "--programs" && programs.is_none() {
            let paths = [absolute(words.next()?)?, absolute(words.next()?)?];
            programs = Some(paths.map(|path| Program::new(path, &[])));
        } else if task.is_none() {
            let value = words.next()?;
            task = Some(read_task(word.to_str()?, value)?);
        } else {
            return None;
        }
    }
    let default = || [REHEARSE, REFERENCE].map(|(path, arguments)| Program::new(path, arguments));
    Some((task.unwrap_or(Task::Gate), programs.unwrap_or_else(default)))
}

fn read_task(word: &str, value: OsString) -> Option<Task> {
    let number = || value.to_str()?.parse().ok();
    match word {
        "--minutes" => number().map(Task::Minutes),
        "--seed" => number().map(Task::Seed),
        "--script" => absolute(value).map(Task::Script),
        _ => None,
    }
}

/// A path that was given from where the program was started.
fn absolute(path: OsString) -> Option<PathBuf> {
    path::absolute(path).ok()
}

/// Whether all scripts of the task are played alike.
fn compare(task: Task, programs: &[Program; 2]) -> io::Result<bool> {
    env::set_current_dir(ROOT)?;
    if let Some(missing) = programs.iter().find(|program| !program.path.exists()) {
        return Err(io::Error::other(format!(
            "{missing} is missing; build it first"
        )));
    }
    let folder = Path::new(FOLDER);
    fs::create_dir_all(folder)?;
    match task {
        Task::Gate => {
            let fresh = fresh_seed();
            println!("compare: seeds {FIXED_SEEDS:?}, and {fresh} as a fresh one");
            let seeds = FIXED_SEEDS.chain([fresh]).flat_map(all_of);
            let limits = ["256", "4096", "65536"].map(Source::Limit);
            let sources = seeds.map(Source::Random).chain(limits);
            play_all(
                sources,
                programs,
                folder,
                &format!("; the fresh seed was {fresh}"),
            )
        }
        Task::Minutes(minutes) => {
            let start = Instant::now();
            let time = Duration::from_secs(minutes.saturating_mul(60));
            let sources = (fresh_seed()..).flat_map(all_of).map(Source::Random);
            let sources = sources.take_while(|_| start.elapsed() < time);
            play_all(sources, programs, folder, "")
        }
        Task::Seed(seed) => {
            let sources = all_of(seed).map(Source::Random);
            play_all(sources, programs, folder, "")
        }
        Task::Script(file) => play_all([Source::File(file)].into_iter(), programs, folder, ""),
    }
}

/// A seed of six digits.
fn fresh_seed() -> u64 {
    100_000 + RandomState::new().hash_one(()) % 900_000
}
