//! How long the program `replay` and plain Rust take to open a journal, and to append to it, each in a file of its own on the same disk.
//! The program's time is from the request to the answer.

use std::fs;
use std::time::Instant;

use crate::measure::Spread;
use crate::replay::{filled, Command, Folder, Plain, Player, Program};

/// How many entries the journal has that is opened.
const ENTRIES: u32 = 1_000_000;

/// What is measured, of how many entries, and how often.
const WORKS: [Work; 3] = [
    Work {
        name: "open",
        entries: ENTRIES,
        command: Command::Open,
        times: 21,
    },
    Work {
        name: "append, with a commit each",
        entries: 200,
        command: Command::Fill {
            count: 200,
            every: 1,
        },
        times: 51,
    },
    Work {
        name: "append, with one commit for 64",
        entries: 3_200,
        command: Command::Fill {
            count: 3_200,
            every: 64,
        },
        times: 51,
    },
];

struct Work {
    name: &'static str,
    entries: u32,
    command: Command,
    times: usize,
}

/// What was measured of one work. Times are of one entry, in microseconds.
pub struct Measured {
    pub work: &'static str,
    pub entries: u32,
    pub proved: Spread,
    pub plain: Spread,
    /// How many times as long the program takes, each time that both were measured.
    pub ratio: Spread,
}

/// Measures all, or says where the two differ.
pub fn measure() -> Result<Vec<Measured>, String> {
    let (proved, plain) = (Folder::new("proved")?, Folder::new("plain")?);
    let bytes = filled(ENTRIES);
    for folder in [&proved, &plain] {
        fs::write(folder.file(), &bytes).map_err(|error| error.to_string())?;
    }
    let mut program = Program::start(&proved)?;
    let mut plain = Plain::new(&plain);
    let mut measured = Vec::new();
    for work in WORKS {
        measured.push(work.measure(&mut program, &mut plain)?);
    }
    let same = program.bytes()? == plain.bytes()?;
    program.end()?;
    if same {
        Ok(measured)
    } else {
        Err("the journals differ".to_owned())
    }
}

impl Work {
    fn measure(&self, program: &mut Program, plain: &mut Plain) -> Result<Measured, String> {
        // Once before, so that what is needed is at hand.
        self.alike(program, plain)?;
        let mut times = (Vec::new(), Vec::new());
        for turn in 0..self.times {
            // Neither is always the first.
            if turn % 2 == 0 {
                times.0.push(self.time(program)?);
                times.1.push(self.time(plain)?);
            } else {
                times.1.push(self.time(plain)?);
                times.0.push(self.time(program)?);
            }
        }
        let ratios = times.0.iter().zip(&times.1).map(|(one, other)| one / other);
        Ok(Measured {
            work: self.name,
            entries: self.entries,
            ratio: Spread::of(ratios.collect()),
            proved: Spread::of(times.0),
            plain: Spread::of(times.1),
        })
    }

    fn alike(&self, program: &mut Program, plain: &mut Plain) -> Result<(), String> {
        let (one, other) = (program.ask(self.command)?, plain.ask(self.command)?);
        if one == other && (one.starts_with("opened") || one == "filled") {
            Ok(())
        } else {
            Err(format!("{}: `{one}` and `{other}`", self.name))
        }
    }

    /// The time of one entry.
    fn time(&self, player: &mut impl Player) -> Result<f64, String> {
        let start = Instant::now();
        player.ask(self.command)?;
        Ok(start.elapsed().as_secs_f64() * 1e6 / f64::from(self.entries))
    }
}
