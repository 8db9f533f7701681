//! The work that is measured: rows that first lead to where it begins.

use compare::random::Random;

use crate::plain::client::Client;
use crate::plain::server::Server;
use crate::plain::text::Text;
use crate::row::{Row, DELETE, INSERT, STRIKE, TYPE};

/// How many clients the server has.
const CLIENTS: usize = 16;

/// The site of the client that sees.
pub const SITE: u8 = 15;

/// Of what is measured nothing is to be refused.
const FITS: &str = "each row fits what there is";

/// Rows, of which those from `begin` on are measured.
pub struct Work {
    pub rows: Vec<Row>,
    pub begin: usize,
}

/// So many operations are taken of 16 clients in turn, each made `lag` entries ago, in a text of so many letters.
pub fn takes(letters: usize, lag: usize, count: usize) -> Work {
    let mut random = Random::new(1);
    let mut server = Server::new();
    let mut rows: Vec<Row> = (0..CLIENTS as u8).map(Row::join).collect();
    rows.extend((0..letters).map(|place| append(&mut random, place % CLIENTS, place)));
    for row in &rows {
        server.serve(row).expect(FITS);
    }
    // The lag grows, until it is as long as it is to be in all lists.
    let growing = 2 * lag + 2 * CLIENTS;
    let end = letters - lag - 1;
    for step in 0..growing + count {
        let kind = some_kind(server.text(), letters);
        let revision = letters + step - lag.min(step / 2);
        let row = edit(&mut random, kind, step % CLIENTS, revision, end);
        server.serve(&row).expect(FITS);
        rows.push(row);
    }
    let begin = rows.len() - count;
    Work { rows, begin }
}

/// So many entries of others are seen by a client that has so many operations pending, in a text of so many letters.
pub fn sees(letters: usize, pending: usize, count: usize) -> Work {
    let mut random = Random::new(1);
    let mut client = Client::new(SITE);
    let others = usize::from(SITE);
    let mut rows: Vec<Row> = (0..letters)
        .map(|place| append(&mut random, place % others, place))
        .collect();
    let end = letters - pending - 1;
    rows.extend((0..pending).map(|step| {
        let kind = [TYPE, STRIKE][step % 2];
        edit(&mut random, kind, usize::from(SITE), 0, end)
    }));
    for row in &rows {
        client.step(row).expect(FITS);
    }
    for step in 0..count {
        let kind = some_kind(client.text(), letters);
        let row = edit(&mut random, kind, step % others, letters + step, end);
        client.step(&row).expect(FITS);
        rows.push(row);
    }
    let begin = rows.len() - count;
    Work { rows, begin }
}

/// A letter goes where there is one too many, and else one comes, so that the text stays as long.
fn some_kind(text: &Text, letters: usize) -> u8 {
    if text.letters().len() > letters {
        DELETE
    } else {
        INSERT
    }
}

/// A letter at the end of a text of so many.
fn append(random: &mut Random, site: usize, length: usize) -> Row {
    let place = length as u32;
    let row = edit(random, INSERT, site, length, 1);
    Row { place, ..row }
}

/// Any letter, at any place below `end`.
fn edit(random: &mut Random, kind: u8, site: usize, revision: usize, end: usize) -> Row {
    Row {
        kind,
        site: site as u8,
        revision: revision as u32,
        place: random.below(end) as u32,
        letter: random.between(1, 1_114_111) as u32,
    }
}

#[cfg(test)]
mod tests {
    use super::*;

    #[test]
    fn the_text_stays_as_long() {
        for length in [0, 16, 256] {
            let mut server = Server::new();
            let work = takes(1_000, length, 2_000);
            for (number, row) in work.rows.iter().enumerate() {
                server.serve(row).unwrap();
                let letters = server.text().letters().len();
                assert!(number < work.begin || (1_000..=1_001).contains(&letters));
            }
            let mut client = Client::new(SITE);
            let work = sees(1_000, length, 2_000);
            for (number, row) in work.rows.iter().enumerate() {
                client.step(row).unwrap();
                let letters = client.text().letters().len();
                assert!(number < work.begin || (1_000..=1_001).contains(&letters));
            }
        }
    }

    #[test]
    fn what_is_measured_lags_as_it_is_to() {
        for lag in [0, 16, 256] {
            let work = takes(1_000, lag, 2_000);
            // Before a row there are as many entries as there are rows before it that do not join.
            let measured = work.rows.iter().enumerate().skip(work.begin);
            assert!(measured.clone().count() == 2_000);
            for (place, row) in measured {
                assert_eq!(row.revision as usize + lag, place - CLIENTS);
                assert_eq!(usize::from(row.site), (place - CLIENTS - 1_000) % CLIENTS);
            }
        }
    }
}
