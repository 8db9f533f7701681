//! The proved server, client and line beside the same in plain Rust: that they come to the same, and how fast each is.
//! tools/bench builds and runs it.

mod check;
mod datagram_row;
mod event;
mod journals;
mod measure;
mod plain;
mod proved;
mod replay;
mod row;
mod screen;
mod texts;
mod work;

use std::env;
use std::process::ExitCode;

use check::journal::Compared;
use measure::{measure, Measured, Play};
use row::Row;
use screen::Screen;
use work::{sees, takes, Work, SITE};

const USAGE: &str = "\
usage: tools/bench
       tools/bench --texts
       tools/bench --journal
       tools/bench --check SEED";

fn main() -> ExitCode {
    let words: Vec<String> = env::args().skip(1).collect();
    let words: Vec<&str> = words.iter().map(String::as_str).collect();
    let result = match words[..] {
        [] => print_table(),
        ["--texts"] => print_texts(),
        ["--journal"] => print_journals(),
        ["--check", seed] => match seed.parse() {
            Ok(seed) => print_check(seed),
            Err(_) => return usage(),
        },
        _ => return usage(),
    };
    match result {
        Ok(()) => ExitCode::SUCCESS,
        Err(message) => {
            eprintln!("bench: {message}");
            ExitCode::FAILURE
        }
    }
}

fn usage() -> ExitCode {
    eprintln!("{USAGE}");
    ExitCode::from(2)
}

fn print_check(seed: u64) -> Result<(), String> {
    let rows = check::check(seed)?;
    let datagrams = check::line::check(seed)?;
    let events = check::ends::check(seed)?;
    println!(
        "bench: {rows} random rows, {datagrams} datagrams and {events} events at the ends of a line, all alike"
    );
    let Compared {
        calls,
        cut,
        damaged,
        ends,
        ..
    } = check::journal::check(seed)?;
    println!(
        "bench: {calls} calls of journals, {cut} of them cut, {damaged} damaged and {ends} with other bytes behind them, all alike"
    );
    Ok(())
}

/// Measures, and prints a table in Markdown.
fn print_table() -> Result<(), String> {
    println!("| call | letters | unseen or pending | proved, a second | plain, a second | proved, ns | plain, ns | ratio | its middle half |");
    println!("|---|---|---|---|---|---|---|---|---|");
    for letters in [1_000, 65_000] {
        for lag in [0, 16, 256] {
            let work = takes(letters, lag, count(letters, lag));
            print_row("take", letters, lag, &work, proved_server, plain::server)?;
        }
    }
    for letters in [1_000, 65_000] {
        for pending in [0, 16, 256] {
            let work = sees(letters, pending, count(letters, pending));
            print_row("see", letters, pending, &work, proved_client, plain_client)?;
        }
    }
    println!();
    print_texts()?;
    println!();
    print_journals()
}

/// The same of the packet of a full text.
fn print_texts() -> Result<(), String> {
    println!("| a full text's packet, {} bytes | proved, µs | plain, µs | copied, µs | proved to copied | its middle half | plain to copied |", texts::length());
    println!("|---|---|---|---|---|---|---|");
    for measured in texts::measure().ok_or("the packets differ")? {
        println!(
            "| {} | {:.1} | {:.1} | {:.1} | {:.2} | {:.2} to {:.2} | {:.2} |",
            measured.work,
            measured.proved.median,
            measured.plain.median,
            measured.copy.median,
            measured.proved_to_copy.median,
            measured.proved_to_copy.low,
            measured.proved_to_copy.high,
            measured.plain_to_copy.median,
        );
    }
    Ok(())
}

/// The same of the server's journal.
fn print_journals() -> Result<(), String> {
    println!("| a journal in a file | entries | proved, µs an entry | plain, µs an entry | ratio | its middle half |");
    println!("|---|---|---|---|---|---|");
    for measured in journals::measure()? {
        println!(
            "| {} | {} | {:.3} | {:.3} | {:.2} | {:.2} to {:.2} |",
            measured.work,
            measured.entries,
            measured.proved.median,
            measured.plain.median,
            measured.ratio.median,
            measured.ratio.low,
            measured.ratio.high,
        );
    }
    Ok(())
}

/// How many operations are measured at a time: more of those that take little.
fn count(letters: usize, length: usize) -> usize {
    match (letters, length) {
        (1_000, 0 | 16) => 200_000,
        (1_000, _) => 40_000,
        _ => 20_000,
    }
}

fn proved_server(rows: &[Row], screen: &mut Screen) {
    assert!(proved::server(rows, screen), "memory is wanting");
}

fn proved_client(rows: &[Row], screen: &mut Screen) {
    assert!(proved::client(SITE, rows, screen), "memory is wanting");
}

fn plain_client(rows: &[Row], screen: &mut Screen) {
    plain::client(SITE, rows, screen);
}

fn print_row(
    call: &str,
    letters: usize,
    length: usize,
    work: &Work,
    proved: Play,
    plain: Play,
) -> Result<(), String> {
    let Measured {
        proved,
        plain,
        ratio,
    } = measure(work, proved, plain)
        .ok_or_else(|| format!("{call}, {letters} letters, {length}: the texts differ"))?;
    println!(
        "| {call} | {letters} | {length} | {:.0} | {:.0} | {:.0} | {:.0} | {:.2} | {:.2} to {:.2} |",
        1e9 / proved.median,
        1e9 / plain.median,
        proved.median,
        plain.median,
        ratio.median,
        ratio.low,
        ratio.high,
    );
    Ok(())
}
