//! What holds of the texts that are shown, whatever the rules are in detail.
//! It is checked for scripts of well-formed lines in which no letter is typed twice.

use std::collections::{HashMap, HashSet};
use std::fmt;
use std::slice::Split;

use reference::script::WRITERS;

use crate::order::{Order, Set};

/// What a line of a script is here.
enum Step {
    Type {
        writer: usize,
        letter: u32,
    },
    Strike {
        writer: usize,
        place: usize,
    },
    /// Any other command that names a writer.
    Name {
        writer: usize,
    },
    Stop,
    Settle,
    Show,
    /// A line that is passed over.
    Pass,
}

/// A script of which the properties can be checked.
pub struct Script {
    steps: Vec<Step>,
}

/// A text that is shown.
#[derive(Clone, Copy, Debug, PartialEq, Eq)]
pub enum Screen {
    Desk,
    Writer(usize),
}

/// What does not hold. Letters are given by their numbers.
#[derive(Clone, Copy, Debug, PartialEq, Eq)]
pub enum Property {
    /// What is printed is not what is printed of a text.
    Shape,
    /// All was settled, and the text is not the desk's.
    Apart,
    /// The text has the letter twice.
    Twice(u32),
    /// Nobody has typed the letter.
    Untyped(u32),
    /// The letters were seen in the other order before.
    Order(u32, u32),
    /// The letter was gone from this text.
    Back(u32),
    /// The letter is gone from this text, and nobody has struck it.
    Gone(u32),
}

/// A property that does not hold.
#[derive(Clone, Copy, Debug, PartialEq, Eq)]
pub struct Broken {
    /// The script's line that shows it.
    pub line: usize,
    pub screen: Screen,
    pub property: Property,
}

impl fmt::Display for Broken {
    fn fmt(&self, f: &mut fmt::Formatter) -> fmt::Result {
        write!(f, "line {}: ", self.line)?;
        match self.screen {
            Screen::Desk => write!(f, "the desk's text ")?,
            Screen::Writer(writer) => write!(f, "the text of writer {writer} ")?,
        }
        match self.property {
            Property::Shape => write!(f, "is not printed as a text is"),
            Property::Apart => write!(f, "is not the desk's, though all is settled"),
            Property::Twice(letter) => write!(f, "has letter {letter} twice"),
            Property::Untyped(letter) => write!(f, "has letter {letter}, which nobody has typed"),
            Property::Order(first, second) => write!(
                f,
                "has letter {first} before {second}, and they were seen in the other order"
            ),
            Property::Back(letter) => write!(f, "has letter {letter} again, which was gone"),
            Property::Gone(letter) => write!(f, "lacks letter {letter}, which nobody has struck"),
        }
    }
}

impl Script {
    /// The script, if all its lines are well-formed and no letter is typed twice.
    pub fn read(script: &[u8]) -> Option<Script> {
        let lines = script.split(|&byte| byte == b'\n');
        let steps: Vec<Step> = lines.map(read_step).collect::<Option<_>>()?;
        let mut typed = HashSet::new();
        let all_differ = steps.iter().all(|step| match step {
            Step::Type { letter, .. } => typed.insert(letter),
            _ => true,
        });
        all_differ.then_some(Script { steps })
    }

    /// How many shows there are in what the script has printed, if all properties hold of them.
    pub fn check(&self, out: &[u8]) -> Result<usize, Broken> {
        let mut record = Record::new(out);
        let mut is_settled = false;
        let mut is_shown = false;
        let mut shows = 0;
        for (line, step) in (1..).zip(&self.steps) {
            match *step {
                Step::Type { writer, letter } => {
                    record.name(writer);
                    record.add_letter(letter);
                }
                Step::Strike { writer, place } => {
                    record.name(writer);
                    record.strike(writer, place, is_shown);
                }
                Step::Name { writer } => record.name(writer),
                Step::Show => {
                    let broken = |(screen, property)| Broken {
                        line,
                        screen,
                        property,
                    };
                    record.read_show(is_settled).map_err(broken)?;
                    shows += 1;
                }
                Step::Stop | Step::Settle | Step::Pass => (),
            }
            is_shown = matches!(step, Step::Show);
            is_settled = match step {
                Step::Settle => true,
                Step::Show | Step::Pass => is_settled,
                _ => false,
            };
        }
        Ok(shows)
    }
}

fn read_step(line: &[u8]) -> Option<Step> {
    let words: Vec<&[u8]> = line.split(|&byte| byte == b' ').collect();
    let step = match words[..] {
        [b"type", writer, place, letter] => {
            number(place)?;
            Step::Type {
                writer: read_writer(writer)?,
                letter: number(letter).or_else(|| one_character(letter))?,
            }
        }
        [b"strike", writer, place] => Step::Strike {
            writer: read_writer(writer)?,
            place: usize::try_from(number(place)?).ok()?,
        },
        [b"take" | b"see" | b"new", writer] => Step::Name {
            writer: read_writer(writer)?,
        },
        [b"stop"] => Step::Stop,
        [b"settle"] => Step::Settle,
        [b"show"] => Step::Show,
        [word, ..] if line.is_empty() || word.starts_with(b"#") => Step::Pass,
        _ => return None,
    };
    Some(step)
}

fn read_writer(word: &[u8]) -> Option<usize> {
    let writer = usize::try_from(number(word)?).ok()?;
    (writer < WRITERS).then_some(writer)
}

fn number(word: &[u8]) -> Option<u32> {
    let is_decimal = word.iter().all(u8::is_ascii_digit);
    std::str::from_utf8(word)
        .ok()
        .filter(|_| is_decimal)?
        .parse()
        .ok()
}

fn one_character(word: &[u8]) -> Option<u32> {
    let mut letters = std::str::from_utf8(word).ok()?.chars();
    let letter = letters.next()?;
    letters.next().is_none().then_some(u32::from(letter))
}

/// What was shown of a text so far.
#[derive(Clone, Default)]
struct Past {
    /// The letters in their order, when it was last shown.
    text: Vec<usize>,
    /// The same letters; none if this text was not shown yet.
    last: Set,
    /// The letters that are gone from it.
    gone: Set,
}

impl Past {
    /// The text of a writer that joins. It is the desk's, which may have changed since it was shown.
    fn joining(desk: &Past) -> Past {
        Past {
            text: desk.text.clone(),
            last: Set::default(),
            gone: desk.gone.clone(),
        }
    }

    /// The text is shown again. No letter may be there that was gone.
    /// If it is known which letters were struck, no other may be gone.
    fn add(&mut self, text: Vec<usize>, struck: Option<&Set>) -> Result<(), Change> {
        let now: Set = text.iter().copied().collect();
        if let Some(letter) = self.gone.common(&now) {
            return Err(Change::Back(letter));
        }
        let gone = self.last.without(&now);
        if let Some(letter) = struck.and_then(|struck| gone.without(struck).first()) {
            return Err(Change::Gone(letter));
        }
        self.gone.add(&gone);
        self.last = now;
        self.text = text;
        Ok(())
    }
}

/// What may not become of a letter.
enum Change {
    Back(usize),
    Gone(usize),
}

type Fault = (Screen, Property);

/// What was typed and shown so far.
struct Record<'a, F: FnMut(&u8) -> bool> {
    /// What was printed and is not read yet.
    lines: Split<'a, u8, F>,
    /// The letters by their numbers, and the numbers of the letters.
    letters: HashMap<u32, usize>,
    numbers: Vec<u32>,
    order: Order,
    desk: Past,
    /// The writers that have joined.
    writers: [Option<Past>; WRITERS],
    /// The letters that were struck, as long as that is known.
    struck: Option<Set>,
}

impl<'a> Record<'a, fn(&u8) -> bool> {
    fn new(out: &'a [u8]) -> Self {
        Record {
            lines: out.split(|&byte| byte == b'\n'),
            letters: HashMap::new(),
            numbers: Vec::new(),
            order: Order::default(),
            desk: Past::default(),
            writers: Default::default(),
            struck: Some(Set::default()),
        }
    }

    /// The writer is named. The first time it joins, and nothing that is gone from the desk is in its text.
    fn name(&mut self, writer: usize) {
        self.writers[writer].get_or_insert_with(|| Past::joining(&self.desk));
    }

    /// The writer strikes a letter. It is known which, if its text has just been shown.
    fn strike(&mut self, writer: usize, place: usize, is_shown: bool) {
        match (&mut self.struck, &self.writers[writer]) {
            (Some(struck), Some(past)) if is_shown => struck.extend(past.text.get(place).copied()),
            _ => self.struck = None,
        }
    }

    fn add_letter(&mut self, number: u32) {
        self.letters.insert(number, self.numbers.len());
        self.numbers.push(number);
    }

    /// Reads what is printed up to the end of the next show.
    fn read_show(&mut self, is_settled: bool) -> Result<(), Fault> {
        let desk = self.find_desk().ok_or((Screen::Desk, Property::Shape))?;
        let text = self.read_text(Screen::Desk, desk)?;
        let change = self.desk.add(text, self.struck.as_ref());
        change.map_err(|change| (Screen::Desk, self.property(change)))?;
        for writer in 0..WRITERS {
            if let Some(mut past) = self.writers[writer].take() {
                let screen = Screen::Writer(writer);
                let shown = self.find_writer(writer).ok_or((screen, Property::Shape))?;
                if is_settled && shown != desk {
                    return Err((screen, Property::Apart));
                }
                let text = self.read_text(screen, shown)?;
                past.add(text, self.struck.as_ref())
                    .map_err(|change| (screen, self.property(change)))?;
                self.writers[writer] = Some(past);
            }
        }
        Ok(())
    }

    fn property(&self, change: Change) -> Property {
        match change {
            Change::Back(letter) => Property::Back(self.numbers[letter]),
            Change::Gone(letter) => Property::Gone(self.numbers[letter]),
        }
    }

    /// The desk's text, with which the next show begins.
    /// A writer that joins anew before has the desk's text, so it can have again what was gone.
    fn find_desk(&mut self) -> Option<&'a [u8]> {
        loop {
            let line = self.lines.next()?;
            if let Some(text) = line.strip_prefix(b"desk: ") {
                return Some(text);
            }
            if let Some(past) = lost(line).and_then(|writer| self.writers[writer].as_mut()) {
                past.gone = self.desk.gone.clone();
                self.struck = None;
            }
        }
    }

    fn find_writer(&mut self, writer: usize) -> Option<&'a [u8]> {
        let name = format!("{writer}: ");
        self.lines.next()?.strip_prefix(name.as_bytes())
    }

    /// The letters of a text, which were all typed, and are all different and in their order.
    fn read_text(&mut self, screen: Screen, text: &[u8]) -> Result<Vec<usize>, Fault> {
        let fault = |property| (screen, property);
        let mut letters = Vec::new();
        let mut set = Set::default();
        for number in read_letters(text).ok_or(fault(Property::Shape))? {
            let letter = self.letters.get(&number).copied();
            let letter = letter.ok_or(fault(Property::Untyped(number)))?;
            if set.contains(letter) {
                return Err(fault(Property::Twice(number)));
            }
            set.insert(letter);
            letters.push(letter);
        }
        self.order.add(&letters).map_err(|(first, second)| {
            fault(Property::Order(self.numbers[first], self.numbers[second]))
        })?;
        Ok(letters)
    }
}

/// The writer that joins anew, if the line says so.
fn lost(line: &[u8]) -> Option<usize> {
    let (&first, rest) = line.split_first()?;
    number(rest.strip_prefix(b": lost ")?)?;
    read_writer(&[first])
}

/// The numbers of the letters of a text that is shown.
fn read_letters(text: &[u8]) -> Option<Vec<u32>> {
    let mut rest = std::str::from_utf8(text).ok()?;
    let mut numbers = Vec::new();
    while let Some(letter) = rest.chars().next() {
        if let Some(escaped) = rest.strip_prefix('\\') {
            let (digits, after) = escaped.strip_prefix("u{")?.split_once('}')?;
            numbers.push(u32::from_str_radix(digits, 16).ok()?);
            rest = after;
        } else {
            numbers.push(u32::from(letter));
            rest = &rest[letter.len_utf8()..];
        }
    }
    Some(numbers)
}

#[cfg(test)]
mod tests {
    use super::*;

    /// What checking gives. Commands and printed lines are written on one line, with a comma between each two.
    fn check(commands: &str, printed: &str) -> Result<usize, Broken> {
        let script = Script::read(commands.replace(", ", "\n").as_bytes());
        let printed = printed.replace(", ", "\n") + "\n";
        script.unwrap().check(printed.as_bytes())
    }

    fn assert_breaks(commands: &str, printed: &str, screen: Screen, property: Property) {
        let broken = check(commands, printed).unwrap_err();
        assert_eq!((broken.screen, broken.property), (screen, property));
        assert!(commands.split(", ").nth(broken.line - 1) == Some("show"));
    }

    const A: u32 = 'a' as u32;
    const B: u32 = 'b' as u32;

    #[test]
    fn reads_what_is_well_formed_and_types_no_letter_twice() {
        let good: [&[u8]; 6] = [
            b"",
            b"type 0 0 a\ntype 3 7 b\ntype 1 0 99\n# and\n\nsettle\nshow",
            b"strike 0 0\ntake 1\nsee 2\nnew 3\nstop\n",
            b"type 0 0 \xc3\xa9\ntype 0 0 #\ntype 0 0 \x0c",
            b"type 0 0 a\ntype 0 0 b",
            b"show\nshow",
        ];
        assert!(good.iter().all(|script| Script::read(script).is_some()));
        let bad: [&[u8]; 11] = [
            b"type 0 0 a\ntype 1 0 a",
            b"type 0 0 a\ntype 1 0 97",
            b"type 0 0 ab",
            b"type 0 0 \xff",
            b"type 0 0",
            b"type 4 0 a",
            b"strike 0 x",
            b"take",
            b"take  0",
            b"stop 0",
            b"Show",
        ];
        assert!(bad.iter().all(|script| Script::read(script).is_none()));
    }

    #[test]
    fn good_output_passes() {
        assert_eq!(check("show, new 2, show", "desk: , desk: , 2: "), Ok(2));
        assert_eq!(
            check(
                "type 0 0 a, show, strike 1 5, type 1 0 b, show, settle, show, show",
                "desk: , 0: a, refused 3, desk: , 0: a, 1: b, desk: ab, 0: ab, 1: ab, desk: ab, 0: ab, 1: ab"
            ),
            Ok(4)
        );
        // A text may look like anything else that is printed.
        assert_eq!(
            check(
                "type 0 0 9, type 0 0 100, type 0 0 92, show, see 0, show",
                "desk: , 0: \\u{5c}d\\u{9}, nothing, desk: , 0: \\u{5c}d\\u{9}"
            ),
            Ok(2)
        );
        let typed: String = (0..)
            .zip("lost 5".chars())
            .map(|(place, letter)| format!("type 0 {place} {}, ", u32::from(letter)))
            .collect();
        assert_eq!(
            check(
                &format!("{typed}show, stop, new 0, show"),
                "desk: , 0: lost 5, 0: lost 6, desk: , 0: "
            ),
            Ok(2)
        );
    }

    #[test]
    fn finds_texts_apart() {
        let settled = "type 0 0 a, new 1, settle, show";
        assert_breaks(
            settled,
            "desk: a, 0: a, 1: ",
            Screen::Writer(1),
            Property::Apart,
        );
        assert_breaks(
            settled,
            "desk: , 0: a, 1: ",
            Screen::Writer(0),
            Property::Apart,
        );
        assert_breaks(
            "type 0 0 a, settle, show, show",
            "desk: a, 0: a, desk: a, 0: ",
            Screen::Writer(0),
            Property::Apart,
        );
        for between in ["see 0", "stop", "new 1", "type 1 0 b", "strike 0 0"] {
            let printed = check(
                &format!("type 0 0 a, new 1, settle, {between}, show"),
                "desk: a, 0: , 1: a",
            );
            assert_eq!(printed, Ok(1), "{between}");
        }
    }

    #[test]
    fn finds_letters_twice() {
        assert_breaks(
            "type 0 0 a, show",
            "desk: aa, 0: ",
            Screen::Desk,
            Property::Twice(A),
        );
        assert_breaks(
            "type 0 0 a, type 0 0 b, show",
            "desk: , 0: aba",
            Screen::Writer(0),
            Property::Twice(A),
        );
    }

    #[test]
    fn finds_letters_that_nobody_has_typed() {
        assert_breaks(
            "type 0 0 a, show",
            "desk: b, 0: a",
            Screen::Desk,
            Property::Untyped(B),
        );
        assert_breaks(
            "type 0 0 a, show, type 0 0 b",
            "desk: a, 0: ab",
            Screen::Writer(0),
            Property::Untyped(B),
        );
        assert_breaks(
            "type 0 0 a, show",
            "desk: , 0: \\u{a0}",
            Screen::Writer(0),
            Property::Untyped(160),
        );
    }

    #[test]
    fn finds_both_orders() {
        let typed = "type 0 0 a, type 1 0 b, show";
        assert_breaks(
            typed,
            "desk: ab, 0: a, 1: ba",
            Screen::Writer(1),
            Property::Order(B, A),
        );
        assert_breaks(
            &format!("{typed}, show"),
            "desk: , 0: ab, 1: b, desk: ba, 0: , 1: ",
            Screen::Desk,
            Property::Order(B, A),
        );
    }

    #[test]
    fn finds_what_comes_back() {
        let thrice = "type 0 0 a, strike 0 0, show, show, show";
        assert_breaks(
            thrice,
            "desk: a, 0: , desk: , 0: , desk: a, 0: ",
            Screen::Desk,
            Property::Back(A),
        );
        assert_breaks(
            thrice,
            "desk: , 0: a, desk: , 0: , desk: , 0: a",
            Screen::Writer(0),
            Property::Back(A),
        );
        assert_eq!(
            check(thrice, "desk: , 0: a, desk: , 0: a, desk: a, 0: "),
            Ok(3)
        );
    }

    #[test]
    fn what_was_lost_may_come_back_but_not_what_is_gone_from_the_desk() {
        let commands = "type 0 0 a, strike 0 0, show, show, new 0, show";
        let struck = "desk: a, 0: a, desk: a, 0: ";
        assert_eq!(
            check(commands, &format!("{struck}, 0: lost 1, desk: a, 0: a")),
            Ok(3)
        );
        // For the desk there is no exception.
        assert_breaks(
            commands,
            "desk: a, 0: a, desk: , 0: , 0: lost 1, desk: a, 0: a",
            Screen::Desk,
            Property::Back(A),
        );
        // Nor is there one for a text that has lost nothing.
        assert_breaks(
            commands,
            &format!("{struck}, desk: a, 0: a"),
            Screen::Writer(0),
            Property::Back(A),
        );
        // What was gone from the desk is in no text of who joins then, but may be in one of who has joined before.
        let gone = "desk: a, 0: a, desk: , 0: a";
        assert_breaks(
            commands,
            &format!("{gone}, 0: lost 1, desk: , 0: a"),
            Screen::Writer(0),
            Property::Back(A),
        );
        assert_eq!(check(commands, &format!("{gone}, desk: , 0: a")), Ok(3));
        assert_breaks(
            "type 0 0 a, strike 0 0, show, show, new 1, show",
            &format!("{gone}, desk: , 0: , 1: a"),
            Screen::Writer(1),
            Property::Back(A),
        );
    }

    #[test]
    fn finds_what_is_gone_and_was_not_struck() {
        let typed = "type 0 0 b, type 0 0 a, new 1, settle, show";
        let both = "desk: ab, 0: ab, 1: ab";
        let (desk, own) = (Screen::Desk, Screen::Writer(0));
        assert_eq!(
            check(
                &format!("{typed}, strike 0 1, strike 1 1, show"),
                &format!("{both}, desk: ab, 0: a, 1: a")
            ),
            Ok(2)
        );
        let struck = format!("{typed}, strike 0 1, show, strike 1 1, settle, show");
        let printed = format!("{both}, desk: ab, 0: a, 1: ab");
        assert_eq!(
            check(&struck, &format!("{printed}, desk: a, 0: a, 1: a")),
            Ok(3)
        );
        assert_breaks(
            &struck,
            &format!("{printed}, desk: , 0: , 1: "),
            desk,
            Property::Gone(A),
        );
        assert_breaks(
            &struck,
            &format!("{both}, desk: ab, 0: b, 1: ab"),
            own,
            Property::Gone(A),
        );
        assert_breaks(
            &format!("{typed}, see 0, show"),
            &format!("{both}, desk: ab, 0: a, 1: ab"),
            own,
            Property::Gone(B),
        );
        // One that joins to strike has the desk's text.
        assert_eq!(
            check(
                "type 0 0 a, show, strike 1 0, show",
                "desk: a, 0: a, desk: , 0: a, 1: "
            ),
            Ok(2)
        );
        // Where a connection has ended something may have been lost.
        assert_eq!(
            check(
                &format!("{typed}, new 0, show"),
                &format!("{both}, 0: lost 2, desk: , 0: , 1: ")
            ),
            Ok(2)
        );
    }

    #[test]
    fn finds_what_is_no_show() {
        let typed = "type 0 0 a, new 1, show";
        let (desk, first, second) = (Screen::Desk, Screen::Writer(0), Screen::Writer(1));
        assert_breaks(typed, "nothing", desk, Property::Shape);
        assert_breaks(typed, "desk: a", first, Property::Shape);
        assert_breaks(typed, "desk: a, 1: a", first, Property::Shape);
        assert_breaks(typed, "desk: a, 0: a, desk: ", second, Property::Shape);
        assert_breaks(typed, "desk: \\a, 0: a, 1: a", desk, Property::Shape);
        assert_breaks(typed, "desk: a, 0: \\u{61, 1: a", first, Property::Shape);
    }
}
