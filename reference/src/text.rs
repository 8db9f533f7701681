//! Letters and texts.

use std::fmt;

use crate::change::{Change, Middle};

/// A letter and the site of the client that typed it.
#[derive(Clone, Copy, Debug, PartialEq, Eq)]
pub struct Letter {
    pub number: u32,
    pub site: u8,
}

/// A list of letters.
#[derive(Clone, Debug, Default, PartialEq, Eq)]
pub struct Text {
    letters: Vec<Letter>,
}

impl Text {
    /// A text with these letters, all typed at one site.
    #[cfg(test)]
    pub fn of(letters: &str, site: u8) -> Text {
        let letter = |c| Letter {
            number: u32::from(c),
            site,
        };
        let letters = letters.chars().map(letter).collect();
        Text { letters }
    }

    /// How many letters there are.
    pub fn length(&self) -> i64 {
        self.letters.len() as i64
    }

    /// Does the change, which must be one of this text and fit.
    pub fn apply(&mut self, change: Change) {
        assert_eq!(change.before(), self.length(), "{change:?}");
        let place = change.ahead as usize;
        match change.middle {
            Middle::Put(number) => {
                let site = change.site;
                self.letters.insert(place, Letter { number, site });
            }
            Middle::Drop => {
                self.letters.remove(place);
            }
            Middle::Keep => (),
        }
    }
}

/// Printable letters as themselves, any other by its number.
impl fmt::Display for Text {
    fn fmt(&self, f: &mut fmt::Formatter) -> fmt::Result {
        for letter in &self.letters {
            match printable(letter.number) {
                Some(c) => write!(f, "{c}")?,
                None => write!(f, "\\u{{{:x}}}", letter.number)?,
            }
        }
        Ok(())
    }
}

/// The letter as a character, if it is printable. Surrogates are no characters.
fn printable(number: u32) -> Option<char> {
    let is_printable = matches!(number, 32..=91 | 93..=126 | 161..);
    char::from_u32(number).filter(|_| is_printable)
}

#[cfg(test)]
mod tests {
    use super::*;
    use crate::change::tests::{delete, insert};
    use crate::change::LAST_LETTER;

    #[test]
    fn applies_changes() {
        // The text, what is done, and the text after it.
        let table = [
            ("", insert(0, 'x'), "x"),
            ("abc", insert(0, 'x'), "xabc"),
            ("abc", insert(1, 'x'), "axbc"),
            ("abc", insert(3, 'x'), "abcx"),
            ("abc", insert(3, '\u{1}'), "abc\u{1}"),
            ("abc", insert(3, '\u{10ffff}'), "abc\u{10ffff}"),
            ("abc", delete(0), "bc"),
            ("abc", delete(1), "ac"),
            ("abc", delete(2), "ab"),
        ];
        for (before, action, after) in table {
            let mut text = Text::of(before, 5);
            text.apply(Change::new(5, action, text.length()));
            assert_eq!(text, Text::of(after, 5), "{action:?} on {before}");
            text.apply(Change::keep(5, text.length()));
            assert_eq!(text, Text::of(after, 5), "nothing on {after}");
        }
    }

    #[test]
    fn letters_have_the_site_of_who_typed_them() {
        let mut text = Text::of("ab", 3);
        text.apply(Change::new(4, insert(1, 'x'), 2));
        text.apply(Change::new(5, delete(0), 3));
        let sites: Vec<u8> = text.letters.iter().map(|letter| letter.site).collect();
        assert_eq!((text.to_string().as_str(), sites), ("xb", vec![4, 3]));
    }

    #[test]
    #[should_panic]
    fn no_change_of_another_text() {
        Text::of("abc", 0).apply(Change::new(0, delete(0), 2));
    }

    #[test]
    fn shows_what_is_not_printable_by_its_number() {
        let shown = |number| {
            let letters = vec![Letter { number, site: 0 }];
            Text { letters }.to_string()
        };
        let by_number = [
            1, 9, 10, 31, 92, 127, 128, 159, 160, 55_296, 56_319, 56_320, 57_343,
        ];
        for number in by_number {
            assert_eq!(shown(number), format!("\\u{{{number:x}}}"));
        }
        let printed = [
            32,
            35,
            91,
            93,
            126,
            161,
            173,
            55_295,
            57_344,
            65_535,
            65_536,
            LAST_LETTER,
        ];
        for number in printed {
            assert_eq!(shown(number), char::from_u32(number).unwrap().to_string());
        }
    }
}
