//! Lines that are no commands, and commands in unusual shapes.

use crate::letters::{Letters, Word};
use crate::random::Random;

/// What becomes of a command, most often something that is none.
pub fn odd_line(random: &mut Random, mut words: Vec<Word>) -> Vec<u8> {
    match random.below(14) {
        0 => return some_comment(random, words),
        1 => return some_blanks(random, 0),
        2 | 3 => (),
        4 => words[0] = random.pick(COMMANDS).to_vec(),
        5 => words.push(some_letter(random)),
        6 => words.truncate(random.below(words.len())),
        7 => spoil(&mut words, 1, random.pick(ODD_WRITERS)),
        8 => spoil(&mut words, 2, random.pick(BAD_PLACES)),
        9 => spoil(&mut words, 2, random.pick(FAR_PLACES)),
        10 => pad_number(random, &mut words),
        11 => spoil(&mut words, 3, random.pick(BAD_LETTERS)),
        12 => repeat_word(random, &mut words),
        // Several things wrong at once: only the first is to be told.
        _ => {
            for word in &mut words {
                if random.one_in(2) {
                    *word = any_word(random);
                }
            }
        }
    }
    join_by_blanks(random, &words)
}

fn some_letter(random: &mut Random) -> Word {
    Letters::Any.some_word(random)
}

fn some_comment(random: &mut Random, words: Vec<Word>) -> Vec<u8> {
    let mut line = some_blanks(random, 0);
    line.push(b'#');
    line.extend(random.pick::<&[u8]>(&[b"", b" ", b"#", b"\xff", b"0: "]));
    line.extend(words.join(&b' '));
    line
}

/// Puts another word in this place, if the command has one there.
fn spoil(words: &mut [Word], at: usize, by: &[u8]) {
    if let Some(word) = words.get_mut(at) {
        *word = by.to_vec();
    }
}

/// Writes zeros before the writer or the place, if the command has one.
fn pad_number(random: &mut Random, words: &mut [Word]) {
    let at = 1 + random.below(2);
    if let Some(number) = words.get_mut(at) {
        let zeros = random.pick(&[1, 2, 9, 10, 30, 300, 9_000]);
        number.splice(0..0, vec![b'0'; zeros]);
    }
}

/// Writes one of the words several times, or very often.
fn repeat_word(random: &mut Random, words: &mut [Word]) {
    let at = random.below(words.len());
    let times = random.pick(&[2, 3, 70, 9_000]);
    words[at] = words[at].repeat(times);
}

/// A word from any of the lists.
fn any_word(random: &mut Random) -> Word {
    match random.below(6) {
        0 => random.pick(COMMANDS).to_vec(),
        1 => random.pick(ODD_WRITERS).to_vec(),
        2 => random.pick(BAD_PLACES).to_vec(),
        3 => random.pick(FAR_PLACES).to_vec(),
        4 => random.pick(BAD_LETTERS).to_vec(),
        _ => some_letter(random),
    }
}

/// `least` to `least` + 3 blanks, and now and then many more.
fn some_blanks(random: &mut Random, least: usize) -> Vec<u8> {
    let more = if random.one_in(200) {
        random.pick(&[300, 9_000])
    } else {
        random.below(4)
    };
    let count = least + more;
    (0..count).map(|_| random.pick(b" \t\r")).collect()
}

/// The words with blanks before, between and after them.
fn join_by_blanks(random: &mut Random, words: &[Word]) -> Vec<u8> {
    let mut line = some_blanks(random, 0);
    for (at, word) in words.iter().enumerate() {
        if at > 0 {
            line.extend(some_blanks(random, 1));
        }
        line.extend(word);
    }
    line.extend(some_blanks(random, 0));
    line
}

#[rustfmt::skip]
const COMMANDS: &[&[u8]] = &[
    b"type", b"strike", b"take", b"see", b"new", b"stop", b"settle", b"show",
    b"Type", b"SHOW", b"typ", b"types", b"takes", b"tak", b"sees", b"se", b"New", b"news", b"sto",
    b"stops", b"settled", b"set", b"show#", b"strike0", b"take0", b"0", b"desk", b"lost",
    b"type\x0b", b"\x0cshow", b"sho\0", b"\0", b"insert", b"\xef\xbb\xbfshow", b"\xc2\xa0see",
    b"show;", b"stop.", b"\xff\xfe", b"\xc3", b"//", b"\\#",
];

/// Writers in unusual shapes, and some that there are not.
#[rustfmt::skip]
const ODD_WRITERS: &[&[u8]] = &[
    b"0", b"1", b"2", b"3", b"00", b"0000000000000000000000000", b"01", b"03",
    b"4", b"04", b"5", b"10", b"15", b"16", b"255", b"256", b"257", b"65536", b"65537",
    b"4294967295", b"4294967296", b"4294967297", b"18446744073709551616", b"18446744073709551617",
    b"340282366920938463463374607431768211456", b"x", b"-0", b"-1", b"+0", b"+1",
    b"0x0", b"0.0", b"1.", b"\xef\xbc\x90", b"\x80", b"#", b"0\0", b"1,2", b"desk",
];

#[rustfmt::skip]
const BAD_PLACES: &[&[u8]] = &[
    b"x", b"-1", b"-0", b"+1", b"1.0", b"0x1", b"1_0", b"1,0", b"1e1", b"0a", b"a0", b"0\0",
    b"\x0c0", b"\xef\xbc\x91", b"\xd9\xa1", b"\xff", b"0\xff", b"#", b"/", b":",
];

#[rustfmt::skip]
const FAR_PLACES: &[&[u8]] = &[
    b"65535", b"65536", b"65537", b"2147483647", b"2147483648", b"4294967294", b"4294967295",
    b"4294967296", b"4294967297", b"42949672950", b"9223372036854775808", b"18446744073709551615",
    b"18446744073709551616", b"18446744073709551617", b"99999999999999999999999999999999999999",
    b"340282366920938463463374607431768211456", b"00000000000000000000000000000000000004294967296",
];

/// Two characters or more, and bytes that are not UTF-8.
#[rustfmt::skip]
const BAD_LETTERS: &[&[u8]] = &[
    b"ab", b"1a", b"a1", b"-1", b"+97", b"0x61", b"9.", b"\\n", b"\\u{61}", b"##", b"'a'", b"a\0",
    b"e\xcc\x81", b"\xc3\xa9\xc3\xa9", b"\xf0\x9f\x98\x80!", b"\xef\xbb\xbfa",
    // a byte that begins nothing, or that nothing goes before
    b"\x80", b"\xbf", b"\xfe", b"\xff", b"a\x80", b"\x80a", b"\xc3\xa9\x80", b"0\x80",
    // cut short, or broken off by another character
    b"\xc3", b"\xe2\x82", b"\xe2", b"\xf0\x9f\x98", b"\xf0\x9f", b"\xf0", b"\xc3a", b"\xe2\x82a",
    // longer than need be
    b"\xc0\x80", b"\xc1\xa1", b"\xc1\xbf", b"\xe0\x80\x80", b"\xe0\x81\xa1", b"\xe0\x9f\xbf",
    b"\xf0\x80\x81\xa1", b"\xf0\x8f\xbf\xbf",
    // surrogates
    b"\xed\xa0\x80", b"\xed\xaf\xbf", b"\xed\xb0\x80", b"\xed\xbf\xbf",
    // above the last letter
    b"\xf4\x90\x80\x80", b"\xf5\x80\x80\x80", b"\xf7\xbf\xbf\xbf", b"\xf8\x88\x80\x80\x80",
    b"\xfc\x84\x80\x80\x80\x80",
];

#[cfg(test)]
mod tests {
    use super::*;

    #[test]
    fn lines_have_no_line_feed_and_some_are_long() {
        let mut random = Random::new(1);
        let words = || {
            vec![
                b"type".to_vec(),
                b"0".to_vec(),
                b"12".to_vec(),
                b"a".to_vec(),
            ]
        };
        let lines: Vec<Vec<u8>> = (0..5_000).map(|_| odd_line(&mut random, words())).collect();
        assert!(lines.iter().all(|line| !line.contains(&b'\n')));
        let longer = |length| lines.iter().filter(|line| line.len() > length).count();
        assert!((100..1_000).contains(&longer(200)), "{}", longer(200));
        assert!((50..500).contains(&longer(8_192)), "{}", longer(8_192));
    }
}
