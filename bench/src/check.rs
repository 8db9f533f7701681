//! Random rows, some of them to be refused, played by both: that they come to the same text.

pub mod ends;
pub mod journal;
pub mod line;

use compare::random::Random;

use crate::plain::client::Client;
use crate::plain::server::{Server, MOST_CONCURRENT};
use crate::plain::Refusal;
use crate::row::{Row, DELETE, INSERT, NOTHING, STRIKE, TYPE};
use crate::screen::Screen;
use crate::{plain, proved};

/// How many lists of rows there are, and how long they are. The longest come to a full text, and stay there.
const LISTS: [(u64, usize); 3] = [(2_000, 60), (500, 800), (6, LONG)];

const LONG: usize = 100_000;

/// Plays the random rows of a seed, and says how many there are, or where the two differ.
pub fn check(seed: u64) -> Result<usize, String> {
    let mut rows = 0;
    for list in lists(seed) {
        let (server, _) = list.server_rows();
        let (site, client, _) = list.client_rows();
        rows += server.len() + client.len();
        if !is_alike_at_server(&server) {
            return Err(format!("the servers' texts differ: {list:?}"));
        }
        if !is_alike_at_client(site, &client) {
            return Err(format!("the clients' texts differ: {list:?}"));
        }
    }
    Ok(rows)
}

fn is_alike_at_server(rows: &[Row]) -> bool {
    let (mut one, mut other) = (Screen::empty(), Screen::empty());
    let is_done = proved::server(rows, &mut one);
    plain::server(rows, &mut other);
    is_done && one == other
}

fn is_alike_at_client(site: u8, rows: &[Row]) -> bool {
    let (mut one, mut other) = (Screen::empty(), Screen::empty());
    let is_done = proved::client(site, rows, &mut one);
    plain::client(site, rows, &mut other);
    is_done && one == other
}

/// A list of rows, by the numbers from which it is made.
#[derive(Debug)]
struct List {
    seed: u64,
    number: u64,
    length: usize,
}

fn lists(seed: u64) -> impl Iterator<Item = List> {
    LISTS.into_iter().flat_map(move |(count, length)| {
        (0..count).map(move |number| List {
            seed,
            number,
            length,
        })
    })
}

impl List {
    fn manner(&self) -> Manner {
        let mut random = Random::of(&[self.seed, self.length as u64, self.number]);
        let is_long = self.length >= LONG;
        Manner {
            crowded: random.pick(if is_long {
                &[65_536, 65_792]
            } else {
                &[3, 10, 100]
            }),
            deleting: random.pick(if is_long { &[50] } else { &[2, 3, 50] }),
            wrong: random.pick(if is_long { &[1_000] } else { &[5, 50, 1_000] }),
            lag: random.pick(&[0, 3, 30, 300]),
            random,
        }
    }

    /// What a server is asked, by up to 16 clients of which some join anew now and then; and what it refuses.
    /// One of them may be late: it speaks only when it has about as many entries before it as it can.
    fn server_rows(&self) -> (Vec<Row>, Vec<Refusal>) {
        let mut manner = self.manner();
        let clients = manner.random.pick(&[1, 2, 4, 16]);
        let late = manner.random.one_in(2).then_some(clients - 1);
        let mut server = Server::new();
        let mut refusals = Vec::new();
        // At first everybody joins.
        let mut rows: Vec<Row> = (0..clients).map(Row::join).collect();
        for row in &rows {
            refusals.extend(server.serve(row).err());
        }
        for _ in 0..self.length {
            let site = match (manner.some_site(clients), late) {
                (_, Some(late)) if manner.is_time(server.unseen(late)) => late,
                (site, Some(late)) if site == late && server.said(late).is_some() => 0,
                (site, _) => site,
            };
            let row = match server.said(site) {
                _ if manner.is_wrong() => manner.some_join(clients),
                None if manner.random.one_in(2) => Row::join(site),
                said => {
                    let said = said.unwrap_or(0);
                    let revision = if late == Some(site) {
                        said
                    } else {
                        manner.some_revision(said, server.revision())
                    };
                    manner.some_operation(site, revision, server.text().letters().len())
                }
            };
            refusals.extend(server.serve(&row).err());
            rows.push(row);
        }
        (rows, refusals)
    }

    /// A client's site, what it is asked, and what it refuses.
    fn client_rows(&self) -> (u8, Vec<Row>, Vec<Refusal>) {
        let mut manner = self.manner();
        let site = manner.random.below(16) as u8;
        let typing = manner.random.pick(&[2, 5, 100]);
        let returning = manner.random.pick(&[2, 5, 1_000]);
        let mut client = Client::new(site);
        let mut refusals = Vec::new();
        let rows = (0..self.length).map(|_| {
            let length = client.text().letters().len();
            let row = if manner.random.one_in(typing) {
                let row = manner.some_operation(site, 0, length);
                let kind = if row.kind == DELETE { STRIKE } else { TYPE };
                Row { kind, ..row }
            } else {
                let by = if manner.random.one_in(returning) {
                    site
                } else {
                    manner.random.below(17) as u8
                };
                let place = manner.some_entry(client.revision());
                manner.some_operation(by, place, length)
            };
            refusals.extend(client.step(&row).err());
            row
        });
        let rows = rows.collect();
        (site, rows, refusals)
    }
}

/// What a list of rows is like.
struct Manner {
    random: Random,
    /// With so many letters and more, many are deleted; with less, one in so many times.
    crowded: usize,
    deleting: usize,
    /// Once in so many times something is wrong.
    wrong: usize,
    /// How far clients lag behind.
    lag: usize,
}

impl Manner {
    fn is_wrong(&mut self) -> bool {
        self.random.one_in(self.wrong)
    }

    /// A site that a client may have, or one that none can have.
    fn some_site(&mut self, clients: u8) -> u8 {
        if self.is_wrong() {
            self.random.pick(&[clients, 15, 16, 255])
        } else {
            self.random.below(usize::from(clients)) as u8
        }
    }

    /// Whether a client with so many entries before it is to speak, since there can hardly be more.
    fn is_time(&mut self, unseen: usize) -> bool {
        unseen + 2 >= MOST_CONCURRENT && self.random.one_in(2)
    }

    /// Somebody joins, most often at a site that is not free.
    fn some_join(&mut self, clients: u8) -> Row {
        let site = self.random.pick(&[0, clients, 15, 16, 255]);
        Row::join(site)
    }

    /// A revision that a client can have that said this one before.
    fn some_revision(&mut self, said: u32, last: u32) -> u32 {
        if self.is_wrong() {
            return self
                .random
                .pick(&[0, said.saturating_sub(1), last + 1, u32::MAX]);
        }
        let behind = self.random.below(self.lag + 1) as u32;
        last.saturating_sub(behind).max(said)
    }

    /// The place of the next entry.
    fn some_entry(&mut self, revision: u32) -> u32 {
        if self.is_wrong() {
            return self.random.pick(&[0, revision + 1, u32::MAX - 1, u32::MAX]);
        }
        revision
    }

    /// An operation on a text of so many letters.
    fn some_operation(&mut self, site: u8, revision: u32, length: usize) -> Row {
        let is_crowded = length >= self.crowded && !self.random.one_in(3);
        let kind = if self.random.one_in(30) {
            NOTHING
        } else if length > 0 && (is_crowded || self.random.one_in(self.deleting)) {
            DELETE
        } else {
            INSERT
        };
        let place = if self.is_wrong() {
            length + self.random.pick(&[0, 1, 2, 65_536, 4_294_000_000])
        } else {
            self.random.below(length + usize::from(kind != DELETE))
        };
        let letter = if self.is_wrong() {
            self.random.pick(&[0, 1_114_111, 1_114_112, u32::MAX])
        } else {
            self.random.between(1, 1_114_111) as u32
        };
        Row {
            kind,
            site,
            revision,
            place: place as u32,
            letter,
        }
    }
}

#[cfg(test)]
mod tests {
    use super::*;
    use crate::row::JOIN;

    fn count(refusals: &[Refusal], refusal: Refusal) -> usize {
        refusals.iter().filter(|&&other| other == refusal).count()
    }

    #[test]
    fn each_refusal_comes_and_most_is_done() {
        let (mut server, mut client) = (Vec::new(), Vec::new());
        let mut rows = 0;
        for list in lists(1) {
            server.extend(list.server_rows().1);
            client.extend(list.client_rows().2);
            rows += list.length;
        }
        for refusal in [
            Refusal::Letter,
            Refusal::Connection,
            Refusal::Place,
            Refusal::Revision,
            Refusal::Full,
            Refusal::Sites,
        ] {
            assert!(count(&server, refusal) > 10, "server: {refusal:?}");
        }
        for refusal in [
            Refusal::Letter,
            Refusal::Place,
            Refusal::Pending,
            Refusal::Entry,
            Refusal::Full,
        ] {
            assert!(count(&client, refusal) > 10, "client: {refusal:?}");
        }
        let refused = server.len() + client.len();
        assert!(refused * 4 < rows * 2, "{refused} of {rows} and {rows}");
    }

    #[test]
    fn connections_end_where_too_little_is_seen() {
        let ends = |list: List| {
            let mut server = Server::new();
            let (rows, _) = list.server_rows();
            let mut ends = 0;
            for row in rows {
                let before = (0..16).filter(|&site| server.said(site).is_some()).count();
                let is_taken = server.serve(&row).is_ok() && row.kind != JOIN;
                let after = (0..16).filter(|&site| server.said(site).is_some()).count();
                ends += usize::from(is_taken && after < before);
            }
            ends
        };
        assert!(lists(1).map(ends).sum::<usize>() > 3);
    }

    #[test]
    fn a_row_that_is_left_out_is_seen() {
        let list = List {
            seed: 1,
            number: 1,
            length: 60,
        };
        let (rows, _) = list.server_rows();
        assert!(is_alike_at_server(&rows));
        let (mut one, mut other) = (Screen::empty(), Screen::empty());
        assert!(proved::server(&rows, &mut one));
        plain::server(&rows[..rows.len() / 2], &mut other);
        assert!(one != other);
    }
}
