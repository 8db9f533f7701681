//! Making a script smaller that fails.

use std::time::Instant;

/// Drops lines as long as the script still fails, or until that time.
/// In what is left then, no line can be dropped alone.
pub fn shrink(script: &[u8], until: Instant, mut fails: impl FnMut(&[u8]) -> bool) -> Vec<u8> {
    let mut lines: Vec<&[u8]> = script.split_inclusive(|&byte| byte == b'\n').collect();
    let mut fails = |lines: &[&[u8]]| Instant::now() < until && fails(&lines.concat());
    cut_end(&mut lines, &mut fails);
    while drop_lines(&mut lines, &mut fails) {}
    lines.concat()
}

/// Keeps the first lines only, as many as it takes to fail.
fn cut_end(lines: &mut Vec<&[u8]>, fails: &mut impl FnMut(&[&[u8]]) -> bool) {
    let (mut passing, mut failing) = (0, lines.len());
    while failing - passing > 1 {
        let middle = passing + (failing - passing) / 2;
        if fails(&lines[..middle]) {
            failing = middle;
        } else {
            passing = middle;
        }
    }
    lines.truncate(failing);
}

/// Goes once through the lines, from the end on, and drops what can go:
/// chunks that double as long as they can, and halve down to a single line when they cannot.
fn drop_lines(lines: &mut Vec<&[u8]>, fails: &mut impl FnMut(&[&[u8]]) -> bool) -> bool {
    let mut end = lines.len();
    let mut chunk = lines.len().div_ceil(2);
    let mut some_went = false;
    while end > 0 {
        let first = end.saturating_sub(chunk);
        let rest = [&lines[..first], &lines[end..]].concat();
        if fails(&rest) {
            *lines = rest;
            end = first;
            chunk *= 2;
            some_went = true;
        } else if chunk > 1 {
            chunk /= 2;
        } else {
            end -= 1;
        }
    }
    some_went
}

#[cfg(test)]
mod tests {
    use super::*;
    use std::time::Duration;

    fn has(script: &[u8], line: &[u8]) -> bool {
        script
            .split(|&byte| byte == b'\n')
            .any(|other| other == line)
    }

    fn numbers(count: usize) -> Vec<u8> {
        let lines: Vec<String> = (0..count).map(|number| format!("{number}\n")).collect();
        lines.concat().into_bytes()
    }

    fn in_a_minute() -> Instant {
        Instant::now() + Duration::from_secs(60)
    }

    #[test]
    fn finds_the_only_lines_that_matter() {
        let needed: [&[u8]; 4] = [b"0", b"17", b"18", b"731"];
        let fails = |script: &[u8]| needed.iter().all(|line| has(script, line));
        let small = shrink(&numbers(2000), in_a_minute(), fails);
        assert_eq!(small, b"0\n17\n18\n731\n");
    }

    #[test]
    fn finds_what_fails_with_either_of_two() {
        // One line can go only when another has gone.
        let fails = |script: &[u8]| has(script, b"3") && (!has(script, b"9") || has(script, b"50"));
        assert_eq!(shrink(&numbers(60), in_a_minute(), fails), b"3\n");
    }

    #[test]
    fn takes_few_tries() {
        let mut tries = 0;
        let fails = |script: &[u8]| {
            tries += 1;
            has(script, b"5000")
        };
        assert_eq!(shrink(&numbers(10_000), in_a_minute(), fails), b"5000\n");
        assert!(tries < 100, "{tries}");
    }

    #[test]
    fn keeps_all_when_there_is_no_time() {
        let script = numbers(10);
        assert_eq!(shrink(&script, Instant::now(), |_| true), script);
    }
}
