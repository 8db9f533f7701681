//! How long the packet of a full text takes to be read and written, by the proved code and by plain Rust, and how long a loop takes that
//! copies as many bytes.

use std::hint::black_box;
use std::time::Instant;

use compare::random::Random;

use crate::datagram_row::{DatagramRow, Said, TEXT};
use crate::measure::Spread;
use crate::plain::line::{bytes, rows, spell, take_letters, End, Letter, MOST_LETTERS};
use crate::proved::line as proved;

/// How often each is measured.
const TIMES: usize = 401;

/// How many times more a packet is written where that is measured.
const MORE: u32 = 10;

/// What was measured of one work. Times are in microseconds.
pub struct Measured {
    pub work: &'static str,
    pub proved: Spread,
    pub plain: Spread,
    pub copy: Spread,
    /// How many times as long as the copying both take, each time that all were measured.
    pub proved_to_copy: Spread,
    pub plain_to_copy: Spread,
}

/// A text and its packet, and where they are copied to.
struct Desk {
    said: Said,
    spelled: Vec<Letter>,
    packet: Vec<u8>,
    copy: Vec<u8>,
    letters: Vec<u32>,
    sites: Vec<u8>,
}

/// Gives the time.
type Work = fn(&mut Desk) -> f64;

/// The same by the proved code and by plain Rust.
const WORKS: [(&str, Work, Work); 4] = [
    (
        "read",
        |desk| time(|| proved_read(desk)),
        |desk| time(|| plain_read(desk)),
    ),
    (
        "read, and take the letters out",
        |desk| time(|| proved_read_and_take(desk)),
        |desk| time(|| plain_read(desk)) + time(|| plain_take(desk)),
    ),
    (
        "write",
        |desk| time(|| proved_write(desk)),
        |desk| time(|| plain_write(desk)),
    ),
    (
        "write what was read",
        |desk| {
            let more = time(|| proved_write_often(desk, 1 + MORE));
            (more - time(|| proved_write_often(desk, 1))) / f64::from(MORE)
        },
        |desk| time(|| plain_write_what_was_read(desk)),
    ),
];

/// How many bytes are copied.
pub fn length() -> usize {
    Desk::new().packet.len()
}

/// Measures all, or gives nothing if the two come to different bytes or letters.
pub fn measure() -> Option<Vec<Measured>> {
    let mut desk = Desk::new();
    if !desk.is_alike() {
        return None;
    }
    let works = WORKS.into_iter();
    Some(
        works
            .map(|(work, proved, plain)| {
                let mut times = [const { Vec::new() }; 3];
                for turn in 0..TIMES {
                    // None is always the first.
                    for step in 0..3 {
                        let which = (turn + step) % 3;
                        let work = [proved, plain, |desk| time(|| copy(desk))][which];
                        times[which].push(work(&mut desk));
                    }
                }
                let [proved, plain, copy] = times;
                let to_copy = |times: &[f64]| {
                    let ratios = times.iter().zip(&copy).map(|(one, other)| one / other);
                    Spread::of(ratios.collect())
                };
                Measured {
                    work,
                    proved_to_copy: to_copy(&proved),
                    plain_to_copy: to_copy(&plain),
                    proved: Spread::of(proved),
                    plain: Spread::of(plain),
                    copy: Spread::of(copy),
                }
            })
            .collect(),
    )
}

/// The time of the second of two turns, so that what the work needs is at hand.
fn time(mut work: impl FnMut()) -> f64 {
    work();
    let start = Instant::now();
    work();
    start.elapsed().as_secs_f64() * 1e6
}

fn copy(desk: &mut Desk) {
    let from = black_box(desk.packet.as_slice());
    for (to, from) in desk.copy.iter_mut().zip(from) {
        *to = *from;
    }
    black_box(desk.copy.as_slice());
}

fn proved_read(desk: &mut Desk) {
    assert!(proved::is_read(&desk.packet));
}

fn plain_read(desk: &mut Desk) {
    assert!(bytes::read(black_box(&desk.packet), End::Server).is_some());
}

fn proved_read_and_take(desk: &mut Desk) {
    let mut row = DatagramRow::default();
    let Desk {
        packet,
        letters,
        sites,
        ..
    } = desk;
    assert!(proved::read_into(packet, &mut row, letters, sites));
}

fn plain_take(desk: &mut Desk) {
    take_letters(black_box(&desk.spelled), &mut desk.letters, &mut desk.sites);
    black_box((desk.letters.as_slice(), desk.sites.as_slice()));
}

fn proved_write(desk: &mut Desk) {
    assert_eq!(proved::count(&desk.said), desk.packet.len());
}

fn plain_write(desk: &mut Desk) {
    black_box(rows::write(black_box(&desk.said)));
}

fn proved_write_often(desk: &mut Desk, times: u32) {
    assert_eq!(proved::write_often(&desk.packet, times), desk.packet.len());
}

fn plain_write_what_was_read(desk: &mut Desk) {
    let datagram = desk.said.row.datagram(black_box(&desk.spelled));
    black_box(datagram.and_then(|datagram| bytes::write(&datagram)));
}

impl Desk {
    /// Any full text.
    fn new() -> Desk {
        let mut random = Random::new(1);
        let all = 0..MOST_LETTERS;
        let said = Said {
            row: DatagramRow {
                kind: TEXT,
                connection: 1,
                number: 1,
                ..DatagramRow::default()
            },
            letters: all
                .clone()
                .map(|_| random.between(1, 1_114_111) as u32)
                .collect(),
            sites: all.map(|_| random.below(16) as u8).collect(),
        };
        let packet = rows::write(&said).expect("a text can be said");
        Desk {
            spelled: spell(&said.letters, &said.sites),
            copy: vec![0; packet.len()],
            letters: vec![0; MOST_LETTERS],
            sites: vec![0; MOST_LETTERS],
            said,
            packet,
        }
    }

    /// Whether the two write the same packet, and take the same letters out of it.
    fn is_alike(&mut self) -> bool {
        let is_written = proved::write(&self.said).as_ref() == Some(&self.packet);
        proved_read_and_take(self);
        is_written && (&self.letters, &self.sites) == (&self.said.letters, &self.said.sites)
    }
}
