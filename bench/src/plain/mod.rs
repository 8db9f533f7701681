//! The server and the client in plain Rust, with the proved code's data structures and way of working, as one would write them for speed.

pub mod client;
pub mod journal;
pub mod line;
pub mod operation;
pub mod server;
pub mod text;

use crate::row::{Row, DELETE, INSERT, JOIN, STRIKE, TYPE};
use crate::screen::Screen;
use client::Client;
use operation::{Entry, Operation};
use server::Server;
use text::Text;

/// Why something is not done.
#[derive(Clone, Copy, Debug, PartialEq, Eq)]
pub enum Refusal {
    Letter,
    Connection,
    Place,
    Pending,
    Revision,
    Entry,
    Full,
    Sites,
}

impl Row {
    fn operation(&self) -> Operation {
        let Row {
            site,
            place,
            letter,
            ..
        } = *self;
        match self.kind {
            INSERT => Operation::Insert {
                site,
                place,
                letter,
            },
            DELETE => Operation::Delete { site, place },
            _ => Operation::Nothing { site },
        }
    }
}

impl Server {
    /// Does what the row asks for.
    pub fn serve(&mut self, row: &Row) -> Result<(), Refusal> {
        match row.kind {
            JOIN => self.join(row.site).map(|_| ()),
            _ => self.take(row.operation(), row.revision).map(|_| ()),
        }
    }
}

impl Client {
    /// Does what the row asks for.
    pub fn step(&mut self, row: &Row) -> Result<(), Refusal> {
        match row.kind {
            TYPE => self.insert(row.place, row.letter).map(|_| ()),
            STRIKE => self.delete(row.place).map(|_| ()),
            _ => self.see(Entry {
                place: row.revision,
                operation: row.operation(),
            }),
        }
    }
}

/// Shows a new server's text after the rows.
pub fn server(rows: &[Row], screen: &mut Screen) {
    let mut server = Server::new();
    for row in rows {
        // What is refused shows in the text, or in what comes after it.
        let _ = server.serve(row);
    }
    show(server.text(), screen);
}

/// The same of a new client at the site.
pub fn client(site: u8, rows: &[Row], screen: &mut Screen) {
    let mut client = Client::new(site);
    for row in rows {
        let _ = client.step(row);
    }
    show(client.text(), screen);
}

fn show(text: &Text, screen: &mut Screen) {
    copy_part(text.letters(), &mut screen.letters);
    copy_part(text.sites(), &mut screen.sites);
}

fn copy_part<T: Copy>(from: &[T], to: &mut [T]) {
    let count = from.len().min(to.len());
    to[..count].copy_from_slice(&from[..count]);
}
