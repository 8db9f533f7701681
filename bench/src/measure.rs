//! How long both take, in turn.

use std::time::{Duration, Instant};

use crate::row::Row;
use crate::screen::Screen;
use crate::work::Work;

/// How often each work is measured.
const TIMES: usize = 21;

/// Plays the rows, and shows the text.
pub type Play = fn(&[Row], &mut Screen);

/// What was measured of one work. Times are of one operation, in nanoseconds.
pub struct Measured {
    pub proved: Spread,
    pub plain: Spread,
    /// How many times as long the proved code takes, each time that both were measured.
    pub ratio: Spread,
}

/// The median, and between what the middle half lies.
pub struct Spread {
    pub low: f64,
    pub median: f64,
    pub high: f64,
}

impl Spread {
    pub fn of(mut values: Vec<f64>) -> Spread {
        values.sort_by(f64::total_cmp);
        let at = |quarter: usize| values[quarter * (values.len() - 1) / 4];
        Spread {
            low: at(1),
            median: at(2),
            high: at(3),
        }
    }
}

/// Measures the work with both, in turn, or gives nothing if they come to different texts.
pub fn measure(work: &Work, proved: Play, plain: Play) -> Option<Measured> {
    let mut times = (Vec::new(), Vec::new());
    for turn in 0..TIMES {
        // Neither is always the first.
        let ((one, text), (other, same)) = if turn % 2 == 0 {
            let first = time(work, proved);
            (first, time(work, plain))
        } else {
            let first = time(work, plain);
            (time(work, proved), first)
        };
        if text != same {
            return None;
        }
        times.0.push(one);
        times.1.push(other);
    }
    let ratios = times.0.iter().zip(&times.1).map(|(one, other)| one / other);
    Some(Measured {
        ratio: Spread::of(ratios.collect()),
        proved: Spread::of(times.0),
        plain: Spread::of(times.1),
    })
}

/// The time of one row of those that are measured: that of all rows without that of those before.
fn time(work: &Work, play: Play) -> (f64, Screen) {
    let (before, _) = time_all(&work.rows[..work.begin], play);
    let (all, screen) = time_all(&work.rows, play);
    let count = work.rows.len() - work.begin;
    let time = all.saturating_sub(before);
    (time.as_secs_f64() * 1e9 / count as f64, screen)
}

fn time_all(rows: &[Row], play: Play) -> (Duration, Screen) {
    let mut screen = Screen::empty();
    let start = Instant::now();
    play(rows, &mut screen);
    (start.elapsed(), screen)
}
