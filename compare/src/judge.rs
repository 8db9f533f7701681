//! What two programs make of a script.

use std::fmt;
use std::fs;
use std::io;
use std::mem::discriminant;
use std::path::PathBuf;
use std::time::{Duration, Instant};

use crate::program::{Outcome, Program};
use crate::properties::{Broken, Script};
use crate::shrink::shrink;

/// How long a program may take for a script.
const MOST_TIME: Duration = Duration::from_secs(60);

/// How long it is tried to make a script smaller, and how long a program may take for it then.
const SHRINKING_TIME: Duration = Duration::from_secs(60);
const SHRINKING_STEP: Duration = Duration::from_secs(5);

/// What of the outcomes differs.
#[derive(Clone, Copy, Debug, PartialEq, Eq)]
pub enum Part {
    Out,
    Err,
    Status,
}

/// What is wrong with a script's outcomes. Programs are given by their numbers.
#[derive(Clone, Copy, Debug, PartialEq, Eq)]
pub enum Failure {
    /// The program does not end.
    Endless(usize),
    /// The program ends neither with 0 nor with 1.
    Fails(usize),
    Differs(Part),
    Breaks(usize, Broken),
}

impl Failure {
    fn is_like(&self, other: &Failure) -> bool {
        discriminant(self) == discriminant(other)
    }
}

/// A script, what the programs make of it, and what is wrong with that.
pub struct Verdict {
    pub script: Vec<u8>,
    pub outcomes: [Outcome; 2],
    pub failures: Vec<Failure>,
    /// How many shows each program was checked for.
    pub shows: usize,
}

/// Two programs, and a file for the scripts that they play.
pub struct Judge {
    pub programs: [Program; 2],
    pub file: PathBuf,
}

impl Judge {
    /// Plays a script with both programs, and compares what they make of it.
    pub fn judge(&self, script: Vec<u8>) -> io::Result<Verdict> {
        self.judge_within(script, MOST_TIME)
    }

    fn judge_within(&self, script: Vec<u8>, time: Duration) -> io::Result<Verdict> {
        fs::write(&self.file, &script)?;
        let [first, second] = &self.programs;
        let outcomes = [
            first.play(&self.file, time)?,
            second.play(&self.file, time)?,
        ];
        let mut failures: Vec<Failure> = differences(&outcomes).collect();
        let mut shows = 0;
        if let Some(steps) = Script::read(&script) {
            for (number, outcome) in outcomes.iter().enumerate() {
                match steps.check(&outcome.out) {
                    Ok(count) => shows = count,
                    Err(broken) => failures.push(Failure::Breaks(number, broken)),
                }
            }
        }
        Ok(Verdict {
            script,
            outcomes,
            failures,
            shows,
        })
    }

    /// A smaller script that fails in the same way as this one does.
    pub fn shrink(&self, script: &[u8], failure: &Failure) -> io::Result<Verdict> {
        let fails_alike = |script: &[u8]| {
            self.judge_within(script.to_vec(), SHRINKING_STEP)
                .is_ok_and(|verdict| verdict.failures.iter().any(|other| other.is_like(failure)))
        };
        let small = shrink(script, Instant::now() + SHRINKING_TIME, fails_alike);
        self.judge(small)
    }

    pub fn describe(&self, failure: &Failure) -> String {
        match failure {
            Failure::Endless(number) => format!("{} does not end", self.programs[*number]),
            Failure::Fails(number) => format!("{} fails", self.programs[*number]),
            Failure::Differs(part) => format!("{part} differs"),
            Failure::Breaks(number, broken) => format!("{}: {broken}", self.programs[*number]),
        }
    }
}

impl Verdict {
    /// How many lines of the script are commands.
    pub fn commands(&self) -> usize {
        let lines = self.script.split(|&byte| byte == b'\n');
        let is_blank = |byte: &u8| matches!(byte, b' ' | b'\t' | b'\r');
        let firsts = lines.filter_map(|line| line.iter().find(|byte| !is_blank(byte)));
        let faults = self.outcomes[0].err.iter().filter(|&&byte| byte == b'\n');
        firsts.filter(|&&first| first != b'#').count() - faults.count()
    }
}

impl fmt::Display for Part {
    fn fmt(&self, f: &mut fmt::Formatter) -> fmt::Result {
        f.write_str(match self {
            Part::Out => "standard output",
            Part::Err => "standard error",
            Part::Status => "the exit status",
        })
    }
}

fn differences(outcomes: &[Outcome; 2]) -> impl Iterator<Item = Failure> + '_ {
    let [first, second] = outcomes;
    let alone = outcomes
        .iter()
        .enumerate()
        .filter_map(|(number, outcome)| match outcome.status {
            None => Some(Failure::Endless(number)),
            Some(status) => match status.code() {
                Some(0 | 1) => None,
                _ => Some(Failure::Fails(number)),
            },
        });
    let parts = [
        (Part::Out, first.out != second.out),
        (Part::Err, first.err != second.err),
        (Part::Status, first.status != second.status),
    ];
    let differing = parts
        .into_iter()
        .filter_map(|(part, differs)| differs.then_some(Failure::Differs(part)));
    alone.chain(differing)
}

#[cfg(test)]
mod tests {
    use super::*;
    use crate::properties::{Property, Screen};

    const ECHO: (&str, &[&str]) = ("cat", &[]);

    /// What two programs make of a script, and of the smaller one if it fails.
    fn judge(
        name: &str,
        programs: [(&str, &'static [&'static str]); 2],
        script: &str,
    ) -> (Vec<Failure>, String) {
        let judge = Judge {
            programs: programs.map(|(path, arguments)| Program::new(path, arguments)),
            file: std::env::temp_dir().join(format!("judge-{}-{name}", std::process::id())),
        };
        let mut verdict = judge.judge(script.into()).unwrap();
        let failures = verdict.failures.clone();
        if let Some(failure) = failures.first() {
            verdict = judge.shrink(&verdict.script, failure).unwrap();
        }
        fs::remove_file(&judge.file).unwrap();
        (failures, String::from_utf8(verdict.script).unwrap())
    }

    #[test]
    fn finds_nothing_where_all_is_alike() {
        let script = "a\nb\n";
        assert_eq!(
            judge("alike", [ECHO, ECHO], script),
            (vec![], script.to_string())
        );
    }

    #[test]
    fn finds_a_difference_and_the_line_that_makes_it() {
        let other = ("sed", &["s/x/y/"][..]);
        let (failures, small) = judge("out", [ECHO, other], "a\nb\nax\nc\nx\nd");
        assert_eq!(failures, [Failure::Differs(Part::Out)]);
        assert_eq!(small, "ax\n");
        let other = ("sh", &["-c", "cat; exit 1"][..]);
        let (failures, small) = judge("status", [ECHO, other], "a\n");
        assert_eq!(failures, [Failure::Differs(Part::Status)]);
        assert_eq!(small, "");
    }

    #[test]
    fn finds_programs_that_fail() {
        let other = ("sh", &["-c", "exit 3"][..]);
        let (failures, _) = judge("fails", [other, other], "a\n");
        assert_eq!(failures, [Failure::Fails(0), Failure::Fails(1)]);
    }

    #[test]
    fn finds_a_property_that_neither_has() {
        let program = ("sh", &["-c", "sed -n 's/show/desk: a/p'"][..]);
        let (failures, small) = judge("breaks", [program, program], "type 0 0 b\nshow\n");
        let broken = |program| {
            Failure::Breaks(
                program,
                Broken {
                    line: 2,
                    screen: Screen::Desk,
                    property: Property::Untyped(97),
                },
            )
        };
        assert_eq!(failures, [broken(0), broken(1)]);
        assert_eq!(small, "show\n");
    }
}
