//! The language of scripts.

use crate::change::Action;

/// How many writers there can be.
pub const WRITERS: usize = 4;

/// What a line asks for. Writers are given by their numbers.
#[derive(Clone, Copy, Debug, PartialEq, Eq)]
pub enum Command {
    /// `type` or `strike`.
    Edit(u8, Action),
    Take(u8),
    See(u8),
    New(u8),
    Stop,
    Settle,
    Show,
}

/// What is wrong with a line.
pub type Fault = &'static str;

/// Reads a line: a command, nothing if it is passed over, or what is wrong with it.
pub fn read_line(line: &[u8]) -> Result<Option<Command>, Fault> {
    let words: Vec<&[u8]> = line
        .split(|&byte| is_blank(byte))
        .filter(|word| !word.is_empty())
        .collect();
    let command = match words[..] {
        [] | [[b'#', ..], ..] => return Ok(None),
        [b"type", writer, place, letter] => {
            let writer = read_writer(writer)?;
            let place = read_place(place)?;
            let letter = read_letter(letter)?;
            Command::Edit(writer, Action::Insert { place, letter })
        }
        [b"strike", writer, place] => {
            let writer = read_writer(writer)?;
            let place = read_place(place)?;
            Command::Edit(writer, Action::Delete { place })
        }
        [b"take", writer] => Command::Take(read_writer(writer)?),
        [b"see", writer] => Command::See(read_writer(writer)?),
        [b"new", writer] => Command::New(read_writer(writer)?),
        [b"stop"] => Command::Stop,
        [b"settle"] => Command::Settle,
        [b"show"] => Command::Show,
        [first, ..] => return Err(wanted(first)),
    };
    Ok(Some(command))
}

/// What is wrong with a line that has this first word, and other words after it than it wants.
fn wanted(first: &[u8]) -> Fault {
    match first {
        b"type" => "type wants a writer, a place and a letter",
        b"strike" => "strike wants a writer and a place",
        b"take" => "take wants a writer",
        b"see" => "see wants a writer",
        b"new" => "new wants a writer",
        b"stop" => "stop wants no word after it",
        b"settle" => "settle wants no word after it",
        b"show" => "show wants no word after it",
        _ => "no such command",
    }
}

fn read_writer(word: &[u8]) -> Result<u8, Fault> {
    decimal(word)
        .and_then(|number| u8::try_from(number).ok())
        .filter(|&number| usize::from(number) < WRITERS)
        .ok_or("no such writer")
}

fn read_place(word: &[u8]) -> Result<u32, Fault> {
    decimal(word).ok_or("the place is no decimal number")
}

fn read_letter(word: &[u8]) -> Result<u32, Fault> {
    decimal(word)
        .or_else(|| one_character(word))
        .ok_or("the letter is neither a decimal number nor one character")
}

/// Space, tab and carriage return.
fn is_blank(byte: u8) -> bool {
    matches!(byte, 32 | 9 | 13)
}

/// The number written in decimal. One that 32 bits do not hold counts as the highest they do.
fn decimal(word: &[u8]) -> Option<u32> {
    if word.is_empty() || !word.iter().all(u8::is_ascii_digit) {
        return None;
    }
    let number = word.iter().fold(0u32, |number, digit| {
        let digit = u32::from(digit - b'0');
        number.saturating_mul(10).saturating_add(digit)
    });
    Some(number)
}

/// The number of the one character that this is in UTF-8.
fn one_character(word: &[u8]) -> Option<u32> {
    let mut characters = std::str::from_utf8(word).ok()?.chars();
    match (characters.next(), characters.next()) {
        (Some(character), None) => Some(u32::from(character)),
        _ => None,
    }
}

#[cfg(test)]
mod tests {
    use super::*;

    #[test]
    fn reads_commands() {
        let insert = |place, letter| Action::Insert { place, letter };
        let delete = |place| Action::Delete { place };
        let table: [(&[u8], Option<Command>); 17] = [
            (b"", None),
            (b" \t\r", None),
            (b"#", None),
            (b" # type", None),
            (b"type 0 1 a", Some(Command::Edit(0, insert(1, 97)))),
            (
                b"\t type  3\r1 \xc3\xa9\r",
                Some(Command::Edit(3, insert(1, 0xe9))),
            ),
            (b"type 02 007 0092", Some(Command::Edit(2, insert(7, 92)))),
            (b"type 0 0 #", Some(Command::Edit(0, insert(0, 35)))),
            (b"type 0 0 \0", Some(Command::Edit(0, insert(0, 0)))),
            (
                b"type 0 4294967296 99999999999999999999",
                Some(Command::Edit(0, insert(u32::MAX, u32::MAX))),
            ),
            (b"strike 1 5", Some(Command::Edit(1, delete(5)))),
            (b"take 2", Some(Command::Take(2))),
            (b"see 3", Some(Command::See(3))),
            (b"new 0", Some(Command::New(0))),
            (b"stop", Some(Command::Stop)),
            (b"settle ", Some(Command::Settle)),
            (b"show", Some(Command::Show)),
        ];
        for (line, command) in table {
            assert_eq!(read_line(line), Ok(command), "{}", line.escape_ascii());
        }
    }

    #[test]
    fn says_what_is_wrong_first() {
        let no_letter = "the letter is neither a decimal number nor one character";
        let table: [(&[u8], Fault); 40] = [
            (b"Show", "no such command"),
            (b"\xff", "no such command"),
            (b"stop#", "no such command"),
            (b"0", "no such command"),
            (b"type", "type wants a writer, a place and a letter"),
            (b"type 4 x", "type wants a writer, a place and a letter"),
            (
                b"type 4 x ab c",
                "type wants a writer, a place and a letter",
            ),
            (b"strike 4", "strike wants a writer and a place"),
            (b"strike 4 x y", "strike wants a writer and a place"),
            (b"take", "take wants a writer"),
            (b"take 0 1", "take wants a writer"),
            (b"take 4 x", "take wants a writer"),
            (b"see", "see wants a writer"),
            (b"see 0 0", "see wants a writer"),
            (b"new", "new wants a writer"),
            (b"new 0 #", "new wants a writer"),
            (b"stop 0", "stop wants no word after it"),
            (b"settle 0", "settle wants no word after it"),
            (b"show 0", "show wants no word after it"),
            (b"show #", "show wants no word after it"),
            (b"type 4 x ab", "no such writer"),
            (b"type -0 x ab", "no such writer"),
            (b"type 256 0 a", "no such writer"),
            (b"type 4294967296 0 a", "no such writer"),
            (b"type x 0 a", "no such writer"),
            (b"strike 4 x", "no such writer"),
            (b"strike 18446744073709551616 0", "no such writer"),
            (b"take 4", "no such writer"),
            (b"take x", "no such writer"),
            (b"see 16", "no such writer"),
            (b"new 65536", "no such writer"),
            (b"new +1", "no such writer"),
            (b"type 0 +1 ab", "the place is no decimal number"),
            (b"type 3 1.0 a", "the place is no decimal number"),
            (b"strike 0 x", "the place is no decimal number"),
            (b"type 0 9 ab", no_letter),
            (b"type 0 9 -1", no_letter),
            (b"type 0 9 \xed\xa0\x80", no_letter),
            (b"type 0 9 \xc1\xa1", no_letter),
            (b"type 0 9 \xf4\x90\x80\x80", no_letter),
        ];
        for (line, fault) in table {
            assert_eq!(read_line(line), Err(fault), "{}", line.escape_ascii());
        }
    }
}
