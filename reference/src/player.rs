//! The script player.

use std::io::{self, Write};

use crate::room::Room;
use crate::script::{read_line, Command, WRITERS};

/// Plays a script line by line.
#[derive(Default)]
pub struct Player {
    room: Room,
    /// How many lines there have been.
    lines: u64,
    /// Whether one of them was no command.
    failed: bool,
}

impl Player {
    /// Plays a whole script.
    pub fn play(
        &mut self,
        script: &[u8],
        out: &mut impl Write,
        err: &mut impl Write,
    ) -> io::Result<()> {
        // After a last line feed this gives one empty line more, which is passed over.
        for line in script.split(|&byte| byte == b'\n') {
            self.play_line(line, out, err)?;
        }
        Ok(())
    }

    /// Plays one line, given without its line feed.
    pub fn play_line(
        &mut self,
        line: &[u8],
        out: &mut impl Write,
        err: &mut impl Write,
    ) -> io::Result<()> {
        self.lines += 1;
        match read_line(line) {
            Ok(None) => Ok(()),
            Ok(Some(Command::Show)) => self.show(out),
            Ok(Some(command)) => {
                for event in self.room.play(command) {
                    writeln!(out, "{event}")?;
                }
                Ok(())
            }
            Err(message) => {
                self.failed = true;
                writeln!(err, "line {}: {message}", self.lines)
            }
        }
    }

    /// Whether a line was no command.
    pub fn failed(&self) -> bool {
        self.failed
    }

    /// How many letters the text has that this writer's next command is about.
    pub fn length(&self, writer: u8) -> usize {
        self.room.length(writer) as usize
    }

    /// Whether the server can take something of this writer's.
    pub fn has_sent(&self, writer: u8) -> bool {
        self.room.has_sent(writer)
    }

    /// Whether this writer can see something.
    pub fn has_to_see(&self, writer: u8) -> bool {
        self.room.has_to_see(writer)
    }

    fn show(&self, out: &mut impl Write) -> io::Result<()> {
        writeln!(out, "desk: {}", self.room.desk())?;
        for number in (0..).take(WRITERS) {
            if let Some(text) = self.room.screen(number) {
                writeln!(out, "{number}: {text}")?;
            }
        }
        Ok(())
    }
}

#[cfg(test)]
mod tests {
    use super::*;

    /// What a script prints on either stream.
    fn play(script: &[u8]) -> (String, String, bool) {
        let (mut out, mut err) = (Vec::new(), Vec::new());
        let mut player = Player::default();
        player.play(script, &mut out, &mut err).unwrap();
        let text = |bytes| String::from_utf8(bytes).unwrap();
        (text(out), text(err), player.failed())
    }

    /// That a script of commands prints these lines.
    fn assert_plays(script: &str, lines: &[&str]) {
        let (out, err, failed) = play(script.as_bytes());
        assert_eq!(out.lines().collect::<Vec<_>>(), lines, "{script}");
        assert_eq!((err.as_str(), failed), ("", false), "{script}");
    }

    /// Commands that are written on one line, with a comma between each two.
    fn assert_short(commands: &str, lines: &[&str]) {
        assert_plays(&commands.replace(", ", "\n"), lines);
    }

    /// That a script comes to this text on the desk and on the screens of so many writers.
    fn assert_settles(commands: &str, writers: u8, text: &str) {
        let mut lines = vec![format!("desk: {text}")];
        lines.extend((0..writers).map(|number| format!("{number}: {text}")));
        let lines: Vec<&str> = lines.iter().map(String::as_str).collect();
        assert_short(&format!("{commands}, settle, show"), &lines);
    }

    const ABC: &str = "type 0 0 a, type 0 1 b, type 0 2 c, new 1, settle";

    #[test]
    fn letters_at_one_place_stand_by_site() {
        for takes in ["take 0, take 1", "take 1, take 0"] {
            assert_settles(&format!("type 0 0 a, type 1 0 b, {takes}"), 2, "ab");
        }
        for takes in ["take 0, take 1, take 2", "take 2, take 1, take 0"] {
            let typed = "type 2 0 c, type 0 0 a, type 1 0 b";
            assert_settles(&format!("{typed}, {takes}"), 3, "abc");
        }
    }

    #[test]
    fn a_letter_goes_once() {
        assert_settles(&format!("{ABC}, strike 0 1, strike 1 1"), 2, "ac");
        // The second entry is there, and is nothing.
        assert_short(
            &format!("{ABC}, strike 0 1, strike 1 1, take 0, take 1, see 0, see 0, see 0, new 1"),
            &["nothing", "1: lost 0"],
        );
    }

    #[test]
    fn places_move_with_the_text() {
        assert_settles(&format!("{ABC}, type 0 2 x, strike 1 0"), 2, "bxc");
        assert_settles(&format!("{ABC}, strike 1 0, take 1, type 0 2 x"), 2, "bxc");
    }

    #[test]
    fn a_word_stays_together() {
        let typed = "type 0 1 x, type 0 2 y, type 1 1 z";
        let desks = ["desk: azbc", "desk: axzbc", "desk: axyzbc"];
        assert_short(
            &format!("{ABC}, {typed}, take 1, show, take 0, show, take 0, show"),
            &[
                [desks[0], "0: axybc", "1: azbc"],
                [desks[1], "0: axybc", "1: azbc"],
                [desks[2], "0: axybc", "1: azbc"],
            ]
            .concat(),
        );
        for takes in ["take 1, take 0, take 0", "take 0, take 1", "take 0, take 0"] {
            assert_settles(&format!("{ABC}, {typed}, {takes}"), 2, "axyzbc");
        }
    }

    #[test]
    fn three_letters_in_a_circle() {
        assert_settles(
            "new 1, new 2, type 0 0 a, type 0 1 x, take 0, see 1, type 1 0 y, see 2, strike 2 0, \
             take 2, take 0, take 1",
            3,
            "xy",
        );
    }

    #[test]
    fn tells_what_is_refused() {
        assert_short(&format!("{ABC}, type 0 70000 x"), &["refused 3"]);
        assert_short(
            "strike 3 0, type 3 0 0, type 3 1 0, type 3 1 a, show",
            &[
                "refused 3",
                "refused 1",
                "refused 1",
                "refused 3",
                "desk: ",
                "3: ",
            ],
        );
    }

    #[test]
    fn naming_a_writer_makes_it_join() {
        assert_short("show, settle, stop, show", &["desk: ", "desk: "]);
        assert_short("new 2, show", &["desk: ", "2: "]);
        assert_short(
            "see 1, take 3, show",
            &["nothing", "nothing", "desk: ", "1: ", "3: "],
        );
        assert_short(
            "type 0 0 a, take 0, see 1, show",
            &["nothing", "desk: a", "0: a", "1: a"],
        );
    }

    #[test]
    fn joining_anew_loses_what_was_not_taken() {
        // Of four one was taken and seen, one taken, and the refused one does not count.
        assert_short(
            "type 0 0 a, type 0 1 b, type 0 2 c, type 0 3 d, type 0 9 e, take 0, see 0, take 0, \
             new 0, show, new 0",
            &["refused 3", "0: lost 2", "desk: ab", "0: ab", "0: lost 0"],
        );
        // What was lost is not taken later, and places are those of the new text.
        assert_short(
            "type 0 0 a, new 0, take 0, see 0, type 0 1 b, type 0 0 b, take 0, show",
            &[
                "0: lost 1",
                "nothing",
                "nothing",
                "refused 3",
                "desk: b",
                "0: b",
            ],
        );
    }

    #[test]
    fn the_server_stops() {
        assert_short(
            "type 0 0 a, take 0, type 0 1 b, type 1 0 x, stop, show, type 1 0 y, show, stop, \
             new 0, new 1, show",
            &[
                "desk: a",
                "0: ab",
                "1: xa",
                "1: lost 1",
                "desk: a",
                "0: ab",
                "1: ya",
                "0: lost 1",
                "1: lost 1",
                "desk: a",
                "0: a",
                "1: a",
            ],
        );
        // Who has not joined stays away; the others join by number.
        assert_short(
            "new 2, type 0 0 a, stop, settle, show",
            &["0: lost 1", "2: lost 0", "desk: ", "0: ", "2: "],
        );
    }

    #[test]
    fn passes_over_what_is_no_command() {
        let (out, err, failed) = play(b"show\ntype 1 x a\nshow me\n\n#\nnew 4\nshow");
        assert_eq!(out, "desk: \ndesk: \n");
        assert_eq!(
            err,
            "line 2: the place is no decimal number\n\
             line 3: show wants no word after it\n\
             line 6: no such writer\n"
        );
        assert!(failed);
    }

    #[test]
    fn knows_what_can_be_taken_and_seen() {
        // What is played, and of writer 0 and of writer 1 the length, and whether it has sent
        // something and has something to see.
        let table = [
            ("type 0 0 a", (1, true, false), (0, false, false)),
            ("new 1", (1, true, false), (0, false, false)),
            ("take 0", (1, false, true), (0, false, true)),
            ("type 1 0 b", (1, false, true), (1, true, true)),
            ("see 1", (1, false, true), (2, true, false)),
            ("strike 0 0", (0, true, true), (2, true, false)),
            // Who has no connection begins with the server's text.
            ("stop", (1, false, false), (1, false, false)),
            ("see 1", (1, false, false), (1, false, false)),
        ];
        let mut player = Player::default();
        for (line, first, second) in table {
            player
                .play_line(line.as_bytes(), &mut io::sink(), &mut io::sink())
                .unwrap();
            for (writer, expected) in [(0, first), (1, second)] {
                let known = (
                    player.length(writer),
                    player.has_sent(writer),
                    player.has_to_see(writer),
                );
                assert_eq!(known, expected, "{writer} after {line}");
            }
        }
    }

    #[test]
    fn shows_letters() {
        assert_plays(
            "type 0 0 1114111\ntype 0 0 57343\ntype 0 0 160\ntype 0 0 \u{c}\n\
             type 0 4 \u{e9}\ntype 0 5 \\\ntype 0 6 #\nsettle\nnew 1\nshow",
            &[
                "desk: \\u{c}\\u{a0}\\u{dfff}\u{10ffff}\u{e9}\\u{5c}#",
                "0: \\u{c}\\u{a0}\\u{dfff}\u{10ffff}\u{e9}\\u{5c}#",
                "1: \\u{c}\\u{a0}\\u{dfff}\u{10ffff}\u{e9}\\u{5c}#",
            ],
        );
    }

    #[test]
    fn the_257th_is_refused() {
        let mut script = "type 0 0 a\n".repeat(256);
        script += "type 0 0 a\nstrike 0 0\nstrike 0 256\ntype 0 257 a\ntype 0 257 0\n";
        script += "take 0\ntype 0 0 a\nsee 0\nstrike 0 255\nstrike 0 0\nnew 0\n";
        assert_plays(
            &script,
            &[
                "refused 4",
                "refused 4",
                "refused 3",
                "refused 3",
                "refused 1",
                "refused 4",
                "refused 4",
                "0: lost 256",
            ],
        );
    }

    #[test]
    fn a_writer_that_sees_too_little_loses_the_connection() {
        let edit = "type 0 0 a\ntake 0\nsee 0\nstrike 0 0\ntake 0\nsee 0\n";
        let mut script = "type 1 0 x\n".to_string();
        script += &edit.repeat(2048);
        script += "see 1\n";
        script += "type 0 0 a\nsettle\nshow\n";
        assert_plays(&script, &["1: lost 1", "desk: a", "0: a", "1: a"]);

        // Revisions that have been heard keep the connection.
        let mut script = "new 1\n".to_string();
        script += &edit.repeat(512);
        script += &"see 1\n".repeat(1024);
        script += "take 1\n";
        script += &edit.repeat(2047);
        script += "type 1 0 x\ntype 0 0 a\nsee 1\nsettle\nshow\n";
        assert_plays(&script, &["nothing", "desk: ax", "0: ax", "1: ax"]);
    }

    #[test]
    fn the_server_refuses_what_it_has_no_room_for() {
        let mut script = "new 1\n".to_string();
        for _ in 0..256 {
            script += &"type 0 0 a\n".repeat(256);
            script += "settle\n";
        }
        script += "type 0 0 a\nstrike 0 65535\nstrike 0 65535\nsettle\n";
        script += "type 0 0 a\ntype 1 0 b\ntype 1 0 c\nstrike 1 0\n";
        script += "settle\nstrike 1 65536\ntype 1 0 d\nnew 2\nstrike 2 65536\ntype 2 0 d\n";
        assert_plays(
            &script,
            &[
                "refused 7",
                "refused 3",
                "refused 7",
                "refused 7",
                "1: lost 2",
                "refused 3",
                "refused 7",
                "refused 3",
                "refused 7",
            ],
        );
    }
}
