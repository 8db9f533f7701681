//! What is told of a script that fails.

use std::fs;
use std::io::{self, Write};
use std::path::Path;

use crate::judge::{Judge, Verdict};

/// So many lines of a script are told at most, and so many of what was printed.
const MOST_OF_SCRIPT: usize = 100;
const MOST_PRINTED: usize = 6;

/// So many bytes of a line are told at most.
const MOST_BYTES: usize = 200;

/// Keeps the script in the folder, makes it smaller, and tells what is wrong with it.
pub fn report(
    judge: &Judge,
    folder: &Path,
    name: &str,
    verdict: &Verdict,
    to: &mut impl Write,
) -> io::Result<()> {
    let Some(failure) = verdict.failures.first() else {
        return Ok(());
    };
    keep(judge, folder, name, verdict, to)?;
    let small = judge.shrink(&verdict.script, failure)?;
    keep(judge, folder, &format!("{name}-small"), &small, to)?;

    let script = lines(&small.script);
    let (first, last) = script.split_at(script.len().saturating_sub(MOST_OF_SCRIPT));
    if !first.is_empty() {
        writeln!(to, "    ({} lines, and then)", first.len())?;
    }
    tell(last, to)?;
    let [one, other] = &small.outcomes;
    tell_difference(judge, "standard output", [&one.out, &other.out], to)?;
    tell_difference(judge, "standard error", [&one.err, &other.err], to)
}

fn keep(
    judge: &Judge,
    folder: &Path,
    name: &str,
    verdict: &Verdict,
    to: &mut impl Write,
) -> io::Result<()> {
    let file = folder.join(format!("{name}.script"));
    fs::write(&file, &verdict.script)?;
    let count = lines(&verdict.script).len();
    writeln!(to, "compare: {}, of {count} lines:", file.display())?;
    for failure in &verdict.failures {
        writeln!(to, "compare: {}", judge.describe(failure))?;
    }
    Ok(())
}

/// From the first line on that differs, or the end if none does.
fn tell_difference(
    judge: &Judge,
    what: &str,
    printed: [&[u8]; 2],
    to: &mut impl Write,
) -> io::Result<()> {
    let printed = printed.map(lines);
    let pairs = printed[0].iter().zip(&printed[1]);
    let alike = pairs.take_while(|(one, other)| one == other).count();
    for (program, printed) in judge.programs.iter().zip(&printed) {
        let rest = &printed[alike..];
        if !rest.is_empty() {
            writeln!(to, "{what} of {program} from line {} on:", alike + 1)?;
            tell(&rest[..rest.len().min(MOST_PRINTED)], to)?;
        }
    }
    Ok(())
}

/// Printable ASCII as it is, and anything else escaped.
fn tell(lines: &[&[u8]], to: &mut impl Write) -> io::Result<()> {
    for line in lines {
        let told = &line[..line.len().min(MOST_BYTES)];
        let cut = if told.len() < line.len() { " ..." } else { "" };
        writeln!(to, "    {}{cut}", told.escape_ascii())?;
    }
    Ok(())
}

fn lines(bytes: &[u8]) -> Vec<&[u8]> {
    let mut lines: Vec<&[u8]> = bytes.split(|&byte| byte == b'\n').collect();
    lines.pop_if(|last| last.is_empty());
    lines
}

#[cfg(test)]
mod tests {
    use super::*;
    use crate::program::Program;

    #[test]
    fn tells_and_keeps_what_fails() {
        let folder = std::env::temp_dir().join(format!("report-{}", std::process::id()));
        fs::create_dir(&folder).unwrap();
        let judge = Judge {
            programs: [Program::new("cat", &[]), Program::new("sed", &["s/x/y/"])],
            file: folder.join("playing"),
        };
        let script = b"a\nb\xff\nx\xff\nc\n";
        let verdict = judge.judge(script.to_vec()).unwrap();
        let mut told = Vec::new();
        report(&judge, &folder, "some", &verdict, &mut told).unwrap();

        let told = String::from_utf8(told).unwrap();
        let expected = [
            "some.script, of 4 lines:",
            "compare: standard output differs",
            "some-small.script, of 1 lines:",
            "compare: standard output differs",
            "    x\\xff",
            "standard output of cat from line 1 on:",
            "    x\\xff",
            "standard output of sed from line 1 on:",
            "    y\\xff",
        ];
        assert_eq!(told.lines().count(), expected.len());
        assert!(
            told.lines()
                .zip(expected)
                .all(|(line, end)| line.ends_with(end)),
            "{told}"
        );
        assert_eq!(fs::read(folder.join("some.script")).unwrap(), script);
        assert_eq!(
            fs::read(folder.join("some-small.script")).unwrap(),
            b"x\xff\n"
        );
        fs::remove_dir_all(&folder).unwrap();
    }
}
