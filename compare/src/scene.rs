//! A script as it grows, with what it has come to.

use std::io;

use reference::player::Player;
use reference::script::WRITERS;

use crate::letters::{Letters, Word};
use crate::odd::odd_line;
use crate::random::Random;

/// How many of the first lines are often `show`, so as to see when writers join.
const EARLY: usize = 8;

/// What a script is like.
pub struct Manner {
    /// How many lines there are, not counting those that bring it near a limit.
    pub lines: usize,
    /// How many writers there are.
    pub writers: usize,
    /// Whether some of them come late.
    pub late: bool,
    /// Whether there are lines that are no commands.
    pub odd: bool,
    pub letters: Letters,
    /// Whether the texts are shown before each strike, so that one sees what is struck.
    pub shows_what_is_struck: bool,
    /// How often the texts are shown, and all is settled, in a thousand lines.
    pub showing: usize,
    pub settling: usize,
    /// Once in so many lines the server stops, or a writer joins anew, if ever.
    pub stopping: Option<usize>,
    pub leaving: Option<usize>,
    /// With so many letters and more, many are struck.
    pub crowded: usize,
    /// For how many lines what goes on stays the same.
    pub phases: &'static [usize],
    /// Once in so many lines several writers are at work at one place.
    pub clashes: usize,
}

/// A command. Writers are given by their numbers.
#[derive(Clone, Copy, Debug, PartialEq, Eq)]
pub enum Step {
    Type(u8, usize),
    Strike(u8, usize),
    Take(u8),
    See(u8),
    New(u8),
    Stop,
    Settle,
    Show,
}

/// The kinds of commands among which one is picked.
#[derive(Clone, Copy)]
enum Verb {
    Type,
    Strike,
    Take,
    See,
    Settle,
    Show,
}

/// What most commands are, for some lines.
#[derive(Clone, Copy)]
enum Mood {
    Mixed,
    Typing,
    Taking,
    Seeing,
}

pub struct Scene {
    pub random: Random,
    pub manner: Manner,
    player: Player,
    script: Vec<u8>,
    /// How many lines there are so far, and how many there are to be, or a few more.
    count: usize,
    end: usize,
    /// From which line on each writer is named. Some never are, but by odd lines.
    since: [Option<usize>; WRITERS],
    /// Where a writer has typed last.
    last: [usize; WRITERS],

    /// For so many lines what follows stays.
    left: usize,
    mood: Mood,
    /// The place where most writers type and strike.
    hot: usize,
    /// A writer that sees nothing.
    asleep: Option<u8>,
    /// A writer whose operations are not taken.
    unheard: Option<u8>,
}

impl Scene {
    pub fn new(mut random: Random, manner: Manner) -> Scene {
        let mut since = [None; WRITERS];
        let first = random.below(WRITERS);
        for at in 0..manner.writers {
            let late = manner.late && at > 0 && random.one_in(3);
            let line = if late {
                random.below(manner.lines / 2 + 1)
            } else {
                0
            };
            since[(first + at) % WRITERS] = Some(line);
        }
        Scene {
            random,
            end: manner.lines,
            manner,
            player: Player::default(),
            script: Vec::new(),
            count: 0,
            since,
            last: [0; WRITERS],
            left: 0,
            mood: Mood::Mixed,
            hot: 0,
            asleep: None,
            unheard: None,
        }
    }

    /// Whether there are to be lines before the last two.
    pub fn goes_on(&self) -> bool {
        self.count + 2 < self.end
    }

    /// The lines that are there already are not counted.
    pub fn count_from_here(&mut self) {
        self.end = self.count + self.manner.lines;
    }

    /// The script, with an end that shows the texts. The last line may have no line feed.
    pub fn finish(mut self) -> Vec<u8> {
        if self.random.one_in(2) {
            self.play(Step::Settle);
        }
        self.play(Step::Show);
        if self.random.one_in(2) {
            self.script.pop();
        }
        self.script
    }

    /// One line, or those of several writers at one place.
    pub fn go_on(&mut self) {
        if self.random.one_in(self.manner.clashes) {
            self.clash();
        } else {
            self.some_line();
        }
    }

    /// One line for what the script has come to.
    fn some_line(&mut self) {
        if self.count < EARLY && self.random.one_in(2) {
            return self.play(Step::Show);
        }
        if self.left == 0 {
            self.change();
        }
        self.left -= 1;
        let step = self.some_step();
        if self.manner.odd && self.random.one_in(10) {
            let words = self.words(step);
            let line = odd_line(&mut self.random, words);
            self.push(&line);
        } else {
            self.play(step);
        }
    }

    /// Puts a command at the end.
    pub fn play(&mut self, step: Step) {
        if self.manner.shows_what_is_struck && matches!(step, Step::Strike(..)) {
            self.play(Step::Show);
        }
        let line = self.words(step).join(&b' ');
        self.push(&line);
    }

    /// Puts a command there so many times.
    pub fn repeat(&mut self, step: Step, times: usize) {
        for _ in 0..times {
            self.play(step);
        }
    }

    /// Puts a line at the end. It is played as well, so that the lengths of the texts are known.
    fn push(&mut self, line: &[u8]) {
        self.player
            .play_line(line, &mut io::sink(), &mut io::sink())
            .expect("a sink takes everything");
        self.script.extend(line);
        self.script.push(b'\n');
        self.count += 1;
    }

    fn words(&mut self, step: Step) -> Vec<Word> {
        let named = |verb: &str, writer: u8| vec![verb.into(), digits(writer.into())];
        match step {
            Step::Type(writer, place) => {
                let mut words = named("type", writer);
                words.push(digits(place));
                words.push(self.manner.letters.some_word(&mut self.random));
                words
            }
            Step::Strike(writer, place) => {
                let mut words = named("strike", writer);
                words.push(digits(place));
                words
            }
            Step::Take(writer) => named("take", writer),
            Step::See(writer) => named("see", writer),
            Step::New(writer) => named("new", writer),
            Step::Stop => vec![b"stop".to_vec()],
            Step::Settle => vec![b"settle".to_vec()],
            Step::Show => vec![b"show".to_vec()],
        }
    }

    /// Something else goes on from here.
    fn change(&mut self) {
        self.left = self.random.pick(self.manner.phases);
        self.mood = self.random.pick_by_weight(&[
            (3, Mood::Mixed),
            (2, Mood::Typing),
            (2, Mood::Taking),
            (3, Mood::Seeing),
        ]);
        let writer = self.some_writer();
        self.hot = self.random.below(self.player.length(writer) + 1);
        // Who sleeps often sleeps on, so that much comes together that it has not seen.
        if self.random.one_in(2) {
            self.asleep = self.random.one_in(2).then_some(writer);
        }
        self.unheard = self.random.one_in(4).then(|| self.some_writer());
    }

    /// How many letters the writer's text has.
    pub fn length(&self, writer: u8) -> usize {
        self.player.length(writer)
    }

    /// The writers that are named by now.
    pub fn named(&self) -> Vec<u8> {
        let is_named = |&writer: &u8| {
            let since = self.since[usize::from(writer)];
            since.is_some_and(|since| since <= self.count)
        };
        (0..).take(WRITERS).filter(is_named).collect()
    }

    /// Those of them but this one, in any order.
    pub fn others(&mut self, writer: u8) -> Vec<u8> {
        let mut others = self.named();
        others.retain(|&other| other != writer);
        self.random.shuffle(&mut others);
        others
    }

    /// A writer that is named by now.
    pub fn some_writer(&mut self) -> u8 {
        let named = self.named();
        self.random.pick(&named)
    }

    fn some_step(&mut self) -> Step {
        if self.is_time_for(self.manner.stopping) {
            return Step::Stop;
        }
        let writer = self.some_writer();
        if self.is_time_for(self.manner.leaving) {
            return Step::New(writer);
        }
        match self.some_verb() {
            Verb::Type => self.some_edit(writer),
            Verb::Strike => self.some_strike(writer),
            Verb::Take => self.some_message(writer, Step::Take),
            Verb::See => self.some_message(writer, Step::See),
            Verb::Settle => Step::Settle,
            Verb::Show => Step::Show,
        }
    }

    fn is_time_for(&mut self, once_in: Option<usize>) -> bool {
        once_in.is_some_and(|lines| self.random.one_in(lines))
    }

    fn some_verb(&mut self) -> Verb {
        let [edit, take, see] = match self.mood {
            Mood::Mixed => [300, 250, 450],
            Mood::Typing => [960, 30, 10],
            Mood::Taking => [60, 900, 40],
            Mood::Seeing => [60, 40, 900],
        };
        self.random.pick_by_weight(&[
            (edit * 2 / 3, Verb::Type),
            (edit / 3, Verb::Strike),
            (take, Verb::Take),
            (see, Verb::See),
            (self.manner.settling, Verb::Settle),
            (self.manner.showing, Verb::Show),
        ])
    }

    /// Most often there is something to take or to see; if not, the mood ends.
    fn some_message(&mut self, writer: u8, step: fn(u8) -> Step) -> Step {
        if self.random.one_in(25) {
            return step(writer);
        }
        let takes = matches!(step(writer), Step::Take(_));
        let is_busy = |&writer: &u8| {
            if takes {
                Some(writer) != self.unheard && self.player.has_sent(writer)
            } else {
                Some(writer) != self.asleep && self.player.has_to_see(writer)
            }
        };
        let busy: Vec<u8> = (0..).take(WRITERS).filter(is_busy).collect();
        match self.random.pick_any(&busy) {
            Some(busy) => step(busy),
            None => {
                self.left = 0;
                self.some_edit(writer)
            }
        }
    }

    /// The writer types, or strikes if the text is long.
    pub fn some_edit(&mut self, writer: u8) -> Step {
        let length = self.length(writer);
        if length >= self.manner.crowded && !self.random.one_in(3) {
            return self.some_strike(writer);
        }
        let place = self.some_place(writer, length);
        self.last[usize::from(writer)] = place;
        Step::Type(writer, place)
    }

    fn some_strike(&mut self, writer: u8) -> Step {
        let length = self.length(writer);
        Step::Strike(writer, self.some_place(writer, length.saturating_sub(1)))
    }

    /// A place, most often one where others are at work, and sometimes just beyond the end.
    fn some_place(&mut self, writer: u8, end: usize) -> usize {
        match self.random.below(20) {
            0..=9 => self.hot.min(end),
            10..=13 => (self.last[usize::from(writer)] + 1).min(end),
            14 => 0,
            15 => end,
            16 => end + 1,
            _ => self.random.below(end + 1),
        }
    }

    /// Several writers type and strike at one place, most often of one text, and then hear of each other.
    fn clash(&mut self) {
        let mut writers = self.named();
        self.random.shuffle(&mut writers);
        if !self.random.one_in(3) {
            self.play(Step::Settle);
        }
        let shortest = writers.iter().map(|&writer| self.length(writer)).min();
        let place = self.random.below(shortest.unwrap_or(0) + 1);
        for &writer in &writers {
            for _ in 0..self.random.pick(&[1, 1, 2, 3]) {
                self.edit_near(writer, place);
            }
        }
        for _ in 0..self.random.below(4 * writers.len()) {
            let writer = self.random.pick(&writers);
            let message = self.random.pick(&[Step::Take, Step::See]);
            let step = self.some_message(writer, message);
            self.play(step);
        }
        if self.random.below(1000) < 3 * self.manner.showing {
            self.play(Step::Settle);
            self.play(Step::Show);
        }
    }

    /// An edit at the place or beside it.
    fn edit_near(&mut self, writer: u8, place: usize) {
        match self.random.below(8) {
            0..=2 => self.play(Step::Type(writer, place)),
            3 => self.play(Step::Type(writer, place + 1)),
            4 | 5 => self.play(Step::Strike(writer, place)),
            6 => self.play(Step::Strike(writer, place.saturating_sub(1))),
            _ => {
                self.play(Step::Strike(writer, place));
                self.play(Step::Type(writer, place));
            }
        }
    }
}

fn digits(number: usize) -> Word {
    number.to_string().into_bytes()
}
