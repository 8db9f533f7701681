//! Random events at the ends of a line, played by both.

use compare::random::Random;

use crate::datagram_row::{DatagramRow, ENTRY, NEW, OPERATION, REVISION, TEXT};
use crate::event::{
    Event, Outcome, ANSWER, BEGIN, END, GIVE, GROW, HEAR, MESSAGE, PACKET, SAW, SEND, STATE, TICK,
    TOOK,
};
use crate::plain::line::client::Client;
use crate::plain::line::server::Server;
use crate::proved::line as proved;
use crate::row::{DELETE, INSERT, NOTHING};

/// How many runs there are at each end, and how long they are.
const RUNS: u64 = 2_000;
const LENGTH: usize = 200;

/// Plays the random events of a seed, and says how many there are, or where the two differ.
pub fn check(seed: u64) -> Result<usize, String> {
    for number in 0..RUNS {
        let (highest, events, outcomes) = client_run(seed, number);
        compare(
            &events,
            &outcomes,
            &proved::client_end(highest, &events),
            "client",
        )?;
        let (events, outcomes) = server_run(seed, number);
        compare(&events, &outcomes, &proved::server_end(&events), "server")?;
    }
    Ok(2 * RUNS as usize * LENGTH)
}

fn compare(
    events: &[Event],
    plain: &[Outcome],
    proved: &[Outcome],
    end: &str,
) -> Result<(), String> {
    let differs = |&place: &usize| plain[place] != proved[place];
    (0..events.len()).find(differs).map_or(Ok(()), |place| {
        let before = &events[place.saturating_sub(20)..=place];
        Err(format!(
            "what comes of an event at a {end}'s end differs, {:?} and {:?}: {before:?}",
            plain[place], proved[place],
        ))
    })
}

/// The highest connection of a client, what happens at its end, and what comes of it.
fn client_run(seed: u64, number: u64) -> (u32, Vec<Event>, Vec<Outcome>) {
    let mut maker = Maker::new(&[seed, u64::from(BEGIN), number]);
    let highest = maker.random.pick(&[0, 0, 1, 7, u32::MAX - 1, u32::MAX]);
    let mut client = Client::new(highest);
    let (events, outcomes) = (0..LENGTH)
        .map(|_| {
            let event = maker.at_client(&client);
            (event, client.step(&event))
        })
        .unzip();
    (highest, events, outcomes)
}

fn server_run(seed: u64, number: u64) -> (Vec<Event>, Vec<Outcome>) {
    let mut maker = Maker::new(&[seed, u64::from(GROW), number]);
    let mut server = Server::default();
    (0..LENGTH)
        .map(|_| {
            let event = maker.at_server(&server);
            (event, server.step(&event))
        })
        .unzip()
}

struct Maker {
    random: Random,
    /// Once in so many times a number is another than the one that would be next.
    wrong: usize,
    /// What happens most: more is sent than is acknowledged, or not.
    busy: usize,
}

impl Maker {
    fn new(numbers: &[u64]) -> Maker {
        let mut random = Random::of(numbers);
        let wrong = random.pick(&[2, 5, 20]);
        let busy = random.pick(&[1, 3, 10]);
        Maker {
            random,
            wrong,
            busy,
        }
    }

    /// This number, or one near it, or any.
    fn about(&mut self, number: u32) -> u32 {
        if !self.random.one_in(self.wrong) {
            return number;
        }
        let any = self.random.between(0, u32::MAX as usize) as u32;
        let near = self.random.below(20) as u32;
        let (less, more) = (number.saturating_sub(near), number.saturating_add(near));
        self.random.pick(&[
            less,
            more,
            more,
            number.saturating_add(1),
            0,
            1,
            u32::MAX,
            any,
        ])
    }

    fn at_client(&mut self, client: &Client) -> Event {
        let (connection, taken) = client
            .answer()
            .map_or((0, 0), |answer| (answer.connection, answer.number));
        let kinds = [
            (4, TICK),
            (8, PACKET),
            (6, HEAR),
            (6, MESSAGE),
            (2, ANSWER),
            (2, STATE),
            (if connection == 0 { 20 } else { 1 }, BEGIN),
            (4, SAW),
            (4 * self.busy, SEND),
        ];
        let kind = self.random.pick_by_weight(&kinds);
        let what = self
            .random
            .pick(&[ENTRY, ENTRY, ENTRY, TEXT, TEXT, REVISION]);
        let (connection, number) = match kind {
            PACKET if what == TEXT => (client.highest().saturating_add(1), 1),
            PACKET => (connection, taken.saturating_add(1)),
            HEAR if self.random.one_in(12) => (0, connection),
            HEAR | MESSAGE => (connection, self.some_number(client.under_way())),
            BEGIN if self.random.one_in(3) => (client.highest().saturating_add(1), 0),
            _ => (connection, 0),
        };
        self.event(kind, what, connection, number)
    }

    fn at_server(&mut self, server: &Server) -> Event {
        let connection = server.connection().unwrap_or(0);
        let taken = server.answer(0).number;
        let kinds = [
            (4, TICK),
            (8, PACKET),
            (6, HEAR),
            (6, MESSAGE),
            (2, ANSWER),
            (2, STATE),
            (if connection == 0 { 20 } else { 1 }, GIVE),
            (4, TOOK),
            (4 * self.busy, GROW),
            (1, END),
        ];
        let kind = self.random.pick_by_weight(&kinds);
        let what = self
            .random
            .pick(&[OPERATION, OPERATION, REVISION, NEW, ENTRY]);
        let (connection, number) = match kind {
            PACKET if what == NEW => (0, 1),
            PACKET => (connection, taken.saturating_add(1)),
            HEAR | MESSAGE => (connection, self.some_number(server.tick())),
            GIVE => (connection.saturating_add(1), 0),
            _ => (connection, 0),
        };
        self.event(kind, what, connection, number)
    }

    /// A number that is under way, most often.
    fn some_number(&mut self, under_way: Option<std::ops::Range<u64>>) -> u32 {
        under_way
            .filter(|numbers| !numbers.is_empty())
            .map_or(1, |numbers| {
                self.random
                    .between(numbers.start as usize, numbers.end as usize - 1)
                    as u32
            })
    }

    fn event(&mut self, kind: u8, what: u8, connection: u32, number: u32) -> Event {
        let what = if kind == SEND {
            self.random
                .pick(&[OPERATION, OPERATION, REVISION, REVISION, NEW, ENTRY, 77])
        } else {
            what
        };
        Event {
            kind,
            datagram: DatagramRow {
                kind: what,
                change: self
                    .random
                    .pick(&[INSERT, DELETE, INSERT, DELETE, NOTHING, 9]),
                site: self.random.below(16) as u8,
                connection: self.about(connection),
                number: self.about(number),
                revision: self.random.pick(&[0, 5, u32::MAX - 3, u32::MAX]),
                place: self.random.below(1_000) as u32,
                letter: self.random.pick(&[0, 97]),
                performed: 0,
                letters: self.random.below(9),
            },
        }
    }
}

#[cfg(test)]
mod tests {
    use super::*;
    use crate::event::REFUSED;

    /// How often an event of this kind ends so.
    fn count(run: &[(Event, Outcome)], kind: u8, is: impl Fn(&Event, &Outcome) -> bool) -> usize {
        let fits = |(event, outcome): &&(Event, Outcome)| event.kind == kind && is(event, outcome);
        run.iter().filter(fits).count()
    }

    #[test]
    fn each_answer_comes_at_a_client() {
        let runs = (0..RUNS).map(|number| client_run(1, number));
        let run: Vec<_> = runs
            .flat_map(|(_, events, outcomes)| events.into_iter().zip(outcomes))
            .collect();
        for (kind, answers) in [
            (TICK, &[1, 2][..]),
            (PACKET, &[1, REFUSED]),
            (HEAR, &[0, 1, 2]),
            (MESSAGE, &[0, 1]),
            (ANSWER, &[0, 1]),
            (SEND, &[0, 1]),
        ] {
            for &answer in answers {
                let times = count(&run, kind, |_, outcome| outcome.answer == answer);
                assert!(times > 100, "{kind}, {answer}: {times}");
            }
        }
        // Texts and entries are taken and refused; there is no room, and then there is for several.
        for (what, answer) in [(TEXT, 1), (TEXT, REFUSED), (ENTRY, 1), (ENTRY, REFUSED)] {
            let is = |event: &Event, outcome: &Outcome| {
                event.datagram.kind == what && outcome.answer == answer
            };
            assert!(count(&run, PACKET, is) > 100, "{what}, {answer}");
        }
        assert!(
            count(&run, SEND, |_, outcome| outcome.answer == 1
                && outcome.count == 0)
                > 100
        );
        assert!(count(&run, HEAR, |_, outcome| outcome.count > 1) > 100);
        assert!(count(&run, TICK, |_, outcome| outcome.count == 16) > 100);
    }

    #[test]
    fn each_answer_comes_at_the_server() {
        let runs = (0..RUNS).map(|number| server_run(1, number));
        let run: Vec<_> = runs
            .flat_map(|(events, outcomes)| events.into_iter().zip(outcomes))
            .collect();
        for (kind, answers) in [
            (TICK, &[0, 1][..]),
            (PACKET, &[0, 1, 2, REFUSED]),
            (HEAR, &[0, 1]),
            (MESSAGE, &[0, 1, 2]),
            (ANSWER, &[1]),
            (STATE, &[0, 1]),
            (GROW, &[0, 1]),
        ] {
            for &answer in answers {
                let times = count(&run, kind, |_, outcome| outcome.answer == answer);
                assert!(times > 100, "{kind}, {answer}: {times}");
            }
        }
        let is_kept = |kept: bool| {
            count(&run, STATE, |_, outcome| {
                outcome.answer == 1 && (outcome.datagram.letters > 0) == kept
            })
        };
        assert!(is_kept(true) > 100 && is_kept(false) > 1_000);
        assert!(
            count(&run, GROW, |_, outcome| outcome.answer == 1
                && outcome.count == 0)
                > 100
        );
        assert!(count(&run, HEAR, |_, outcome| outcome.count > 1) > 100);
        assert!(count(&run, TICK, |_, outcome| outcome.count == 16) > 100);
    }
}
