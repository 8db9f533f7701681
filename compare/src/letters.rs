//! Where the letters of a script come from.

use crate::random::Random;

/// A word of a line.
pub type Word = Vec<u8>;

/// Gives the words that stand for letters.
pub enum Letters {
    /// Plain letters, none of which is refused.
    Plain,
    /// Any letters, some of them refused.
    Any,
    /// Letters that are all different.
    Unique(Unique),
}

impl Letters {
    pub fn some_word(&mut self, random: &mut Random) -> Word {
        match self {
            Letters::Plain => plain_letter(random),
            Letters::Any => any_letter(random),
            Letters::Unique(unique) => unique.next_word(random),
        }
    }
}

/// Ranges of numbers, each of which is gone through without a gap from somewhere on, and round its end.
pub struct Unique {
    ranges: Vec<Range>,
}

struct Range {
    first: u32,
    last: u32,
    next: u32,
    left: u32,
}

/// The letters of one to four bytes, and the surrogates, which are in UTF-8 no letters.
const RANGES: [(u32, u32); 6] = [
    (1, 127),
    (128, 2_047),
    (2_048, 55_295),
    (55_296, 57_343),
    (57_344, 65_535),
    (65_536, 1_114_111),
];

impl Unique {
    pub fn new(random: &mut Random) -> Unique {
        let ranges = RANGES.map(|(first, last)| Range::new(random, first, last));
        Unique {
            ranges: ranges.into(),
        }
    }

    /// A letter that was not given before: as it is, where it can stand so in a line, or by its number.
    fn next_word(&mut self, random: &mut Random) -> Word {
        self.ranges.retain(|range| range.left > 0);
        let at = random.below(self.ranges.len());
        let number = self.ranges[at].take();
        match as_word(number).filter(|_| random.one_in(2)) {
            Some(letter) => letter.to_string().into_bytes(),
            None => number.to_string().into_bytes(),
        }
    }
}

impl Range {
    /// From the beginning, from shortly before the end, or from anywhere between.
    fn new(random: &mut Random, first: u32, last: u32) -> Range {
        let count = last - first + 1;
        let skipped = match random.below(3) {
            0 => 0,
            1 => count - 1 - random.below(10) as u32,
            _ => random.below(count as usize) as u32,
        };
        Range {
            first,
            last,
            next: first + skipped,
            left: count,
        }
    }

    fn take(&mut self) -> u32 {
        let number = self.next;
        self.next = if number == self.last {
            self.first
        } else {
            number + 1
        };
        self.left -= 1;
        number
    }
}

/// The letter, if a line can have it as a word that is not read as a number.
fn as_word(number: u32) -> Option<char> {
    let letter = char::from_u32(number)?;
    let is_read_otherwise = matches!(letter, ' ' | '\t' | '\r' | '\n' | '0'..='9');
    (!is_read_otherwise).then_some(letter)
}

fn plain_letter(random: &mut Random) -> Word {
    vec![random.pick(b"abcdefghijklmnopqrstuvwxyzABCXYZ")]
}

fn any_letter(random: &mut Random) -> Word {
    match random.below(12) {
        0..=3 => plain_letter(random),
        4 => vec![random.pick(b"!\"#$%&'()*+,-./:;<=>?@[\\]^_`{|}~")],
        5 => random.pick(&["\\", "#"]).into(),
        6 | 7 => random.pick(CHARACTERS).into(),
        8 | 9 => random.pick(NUMBERS).into(),
        10 => random.below(0x11_0010).to_string().into_bytes(),
        _ => random.below(0x200).to_string().into_bytes(),
    }
}

/// Characters of one to four bytes, many of them at the ends of ranges.
/// Some look like blanks or digits and are none.
#[rustfmt::skip]
const CHARACTERS: &[&str] = &[
    "\0", "\u{1}", "\u{b}", "\u{c}", "\u{1c}", "\u{1f}", "~", "\u{7f}",
    "\u{80}", "\u{85}", "\u{9f}", "\u{a0}", "¡", "\u{ad}", "²", "é", "ß", "Ж", "٣", "\u{7ff}",
    "\u{800}", "€", "漢", "\u{200b}", "\u{2028}", "\u{3000}", "\u{301}", "３", "\u{feff}",
    "\u{d7ff}", "\u{e000}", "\u{fffd}", "\u{fffe}", "\u{ffff}",
    "\u{10000}", "😀", "𝟙", "\u{e0001}", "\u{10fffe}", "\u{10ffff}",
];

/// Letters by number: printable, unprintable, and no letters at all.
#[rustfmt::skip]
const NUMBERS: &[&str] = &[
    "0", "00", "1", "7", "9", "10", "13", "31", "32", "33", "48", "57", "91", "92", "93", "097",
    "126", "127", "128", "159", "160", "161", "173", "255", "256", "2047", "2048", "4095", "4096",
    "55295", "55296", "55297", "56319", "56320", "57342", "57343", "57344", "65533", "65535",
    "65536", "1048575", "1048576", "1114110", "1114111", "0000000000001114111", "1114112",
    "4294967295", "4294967296", "4294967393", "18446744073709551713", "99999999999999999999999",
];

#[cfg(test)]
mod tests {
    use super::*;
    use std::collections::HashSet;

    /// The number of the letter that a word stands for.
    fn number(word: &[u8]) -> u32 {
        let word = std::str::from_utf8(word).unwrap();
        word.parse().unwrap_or_else(|_| {
            let mut letters = word.chars();
            let letter = letters.next().unwrap();
            assert_eq!(letters.next(), None, "{word:?}");
            u32::from(letter)
        })
    }

    #[test]
    fn unique_letters_are_unique_and_skip_nothing() {
        for seed in 0..20 {
            let mut random = Random::new(seed);
            let mut unique = Unique::new(&mut random);
            let words = (0..20_000).map(|_| unique.next_word(&mut random));
            let numbers: Vec<u32> = words.map(|word| number(&word)).collect();
            let all: HashSet<u32> = numbers.iter().copied().collect();
            assert_eq!(all.len(), numbers.len());
            // The shortest ranges have come to their ends.
            assert!((1..=2_047)
                .chain(55_296..=57_343)
                .all(|number| all.contains(&number)));
            assert!(numbers
                .iter()
                .all(|number| (1..=1_114_111).contains(number)));
        }
    }

    #[test]
    fn letters_stand_as_they_are_where_they_can() {
        let cannot = [9, 10, 13, 32, 48, 57, 55_296, 57_343];
        assert!(cannot.iter().all(|&number| as_word(number).is_none()));
        let can = [1, 11, 12, 35, 47, 58, 92, 127, 133, 160, 1_114_111];
        assert!(can.iter().all(|&number| as_word(number).is_some()));
    }
}
