//! Beginnings that bring a script near a limit, and lines that go over it and back.

use crate::random::Random;
use crate::scene::{Scene, Step};

/// How many operations can be pending.
const MOST_PENDING: usize = 256;

/// How many entries there can be that the server does not know a client to have seen.
const MOST_UNSEEN: usize = 4096;

/// After so many entries a client says how far it has come.
const TELL_EVERY: usize = 1024;

/// How many letters the server's text can have.
pub const MOST_LETTERS: usize = 65_536;

/// What comes to a limit, and who takes part in it.
pub enum Limit {
    /// What is pending at one writer.
    Pending { busy: u8 },
    /// What the sleepers have not seen of what the typist does.
    Unseen { typist: u8, sleepers: Vec<u8> },
    /// The length of a text.
    Full,
}

impl Limit {
    /// Some lines more, most of them any.
    pub fn go_on(&self, scene: &mut Scene) {
        match (self, scene.random.below(16)) {
            (Limit::Pending { busy }, 0..=2) => do_much(scene, *busy, 8),
            (Limit::Pending { busy }, 3) => {
                repeat(scene, Step::Take(*busy), 1, 5);
                repeat(scene, Step::See(*busy), 1, 9);
            }
            (Limit::Unseen { typist, .. }, 0..=3) => {
                let count = scene.random.between(1, 10);
                make_entries(scene, *typist, count);
            }
            (Limit::Unseen { sleepers, .. }, 4 | 5) => {
                // What it sends tells how far it has come.
                let sleeper = scene.random.pick(sleepers);
                repeat(scene, Step::See(sleeper), 0, 6);
                do_much(scene, sleeper, 1);
                repeat(scene, Step::Take(sleeper), 1, 3);
            }
            (Limit::Unseen { typist, .. }, 6) if scene.random.one_in(6) => {
                do_much(scene, *typist, 20);
                scene.play(Step::Settle);
            }
            _ => scene.go_on(),
        }
    }
}

/// A writer comes to have as much pending as it can, or a few less. Others do something that it does not see.
pub fn near_pending(scene: &mut Scene) -> Limit {
    let busy = scene.some_writer();
    let others = scene.others(busy);
    for _ in 0..MOST_PENDING - scene.random.below(6) {
        fitting_edit(scene, busy);
        if let Some(other) = one_in(&mut scene.random, 8, &others) {
            do_much(scene, other, 1);
            scene.play(Step::Take(other));
        }
    }
    Limit::Pending { busy }
}

/// One writer does so much that hardly more can stand before the others, which see nothing of it, or only the first.
pub fn near_unseen(scene: &mut Scene) -> Limit {
    let typist = scene.some_writer();
    let sleepers = scene.others(typist);
    let they_tell = scene.random.one_in(3);
    let mut entries = 0;
    for &sleeper in &sleepers {
        scene.play(Step::New(sleeper));
        if !they_tell && scene.random.one_in(2) {
            do_much(scene, sleeper, 2);
        }
        let count = scene.random.between(1, 9);
        make_entries(scene, typist, count);
        entries += count;
    }
    let mut limit = MOST_UNSEEN;
    if they_tell {
        limit += TELL_EVERY;
        make_many_entries(scene, typist, TELL_EVERY - entries);
        entries = TELL_EVERY;
        for &sleeper in &sleepers {
            // One that sees less tells nothing.
            let less = scene.random.pick(&[0, 0, 0, 1]);
            scene.repeat(Step::See(sleeper), TELL_EVERY - less);
            scene.play(Step::Take(sleeper));
        }
    }
    let below = scene.random.between(3, 20);
    make_many_entries(scene, typist, limit - below - entries);
    Limit::Unseen { typist, sleepers }
}

/// The text comes to have as many letters as it can, or a few less.
pub fn near_full(scene: &mut Scene) -> Limit {
    let typist = scene.some_writer();
    let below = scene.random.below(4);
    let others = scene.others(typist);
    if let Some(other) = one_in(&mut scene.random, 2, &others) {
        let almost = MOST_LETTERS - MOST_PENDING;
        append(scene, typist, almost);
        // The other's text comes to have more letters, by as many as can be pending.
        scene.play(Step::New(other));
        for _ in 0..MOST_PENDING - below {
            let place = scene.random.below(almost);
            scene.play(Step::Type(other, place));
        }
        for place in almost..MOST_LETTERS {
            scene.play(Step::Type(typist, place));
        }
        scene.repeat(Step::Take(typist), MOST_PENDING);
        scene.repeat(Step::See(other), MOST_PENDING);
    } else {
        append(scene, typist, MOST_LETTERS - below);
    }
    Limit::Full
}

/// One of the list, once in so many times.
fn one_in(random: &mut Random, times: usize, list: &[u8]) -> Option<u8> {
    random.pick_any(list).filter(|_| random.one_in(times))
}

/// The writer does something, up to so often.
fn do_much(scene: &mut Scene, writer: u8, most: usize) {
    for _ in 0..scene.random.between(1, most) {
        let step = scene.some_edit(writer);
        scene.play(step);
    }
}

/// The step, from `first` to `last` times.
fn repeat(scene: &mut Scene, step: Step, first: usize, last: usize) {
    let times = scene.random.between(first, last);
    scene.repeat(step, times);
}

/// The writer types or strikes at a place that its text has.
fn fitting_edit(scene: &mut Scene, writer: u8) {
    let length = scene.length(writer);
    let strikes = scene.random.one_in(2) || length >= 20;
    let place = scene.random.below(length + 1);
    if strikes && place < length {
        scene.play(Step::Strike(writer, place));
    } else {
        scene.play(Step::Type(writer, place));
    }
}

/// The writer does something so often, and each time it is taken and seen.
fn make_entries(scene: &mut Scene, writer: u8, count: usize) {
    for _ in 0..count {
        fitting_edit(scene, writer);
        scene.play(Step::Take(writer));
        scene.play(Step::See(writer));
    }
}

/// The same for many, with fewer lines: after as many as can be pending the writer joins anew, or sees all.
fn make_many_entries(scene: &mut Scene, writer: u8, count: usize) {
    let mut left = count;
    while left > 0 {
        let block = left.min(MOST_PENDING);
        left -= block;
        for _ in 0..block {
            fitting_edit(scene, writer);
        }
        scene.repeat(Step::Take(writer), block);
        if scene.random.one_in(4) {
            scene.repeat(Step::See(writer), block);
        } else {
            scene.play(Step::New(writer));
        }
    }
}

/// The writer types at the end until the text has so many letters. Nobody else has joined.
fn append(scene: &mut Scene, writer: u8, length: usize) {
    for place in 0..length {
        scene.play(Step::Type(writer, place));
        if (place + 1) % MOST_PENDING == 0 {
            scene.play(Step::Settle);
        }
    }
    scene.play(Step::Settle);
}
